/* The one function of an archive whose layout, OTHER_LAYOUT, is not the header's: linked in front of the library, with -Wl,-z,muldefs as that
 * is one object, it has the clients refuse to lend it anything. */
#include "funnelfawn.h"

uint64_t funnelfawn_layout(void)
{
    return OTHER_LAYOUT;
}
