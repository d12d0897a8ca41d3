/* The rules by hand in C with one constant changed: an anti-payload is freed one epoch early, together with the payload
   that it covers. This is the demonstration's own copy, to show what goes wrong; the library is not like this. */

#define BYHAND(name) early_##name
#define ANTI_PAYLOAD_WAIT 2
#include "../bench/byhand.c"

const struct calls early = CALLS(early);
