/* What both ends of the relay say of a call: first which one it is, then how long
 * its parts are, then the parts. Each number takes 8 bytes. */
#ifndef RELAY_CALLS_H
#define RELAY_CALLS_H

/* Parts: image, schedule, answers, image_out, lengths. The last three come back. */
#define RELAY_RUN 1
/* Parts: image, finding. The last comes back. */
#define RELAY_INSPECT 2

#endif
