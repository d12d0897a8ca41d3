/* What board.h defines and other languages call: here it is no inline function, but a symbol of the library. */
#define BOARD_INLINE
#include "board.h"
