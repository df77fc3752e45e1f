/* Holds every export of the library, so that a linker keeps it; with -DWITHOUT none. bench/run compares the sizes of the two. */
#include "tainhosa.h"

typedef void (*any)(void);

any volatile table[] = {
#ifndef WITHOUT
    (any)tainhosa_read_header, (any)tainhosa_write_header, (any)tainhosa_next_tag, (any)tainhosa_check_image,
    (any)tainhosa_power_up,    (any)tainhosa_arm,          (any)tainhosa_confirm,  (any)tainhosa_sha256,
    (any)tainhosa_read_sheet,  (any)tainhosa_make_header,  (any)tainhosa_check_firmware, (any)tainhosa_mend,
    (any)tainhosa_power_up_counted, (any)tainhosa_arm_counted, (any)tainhosa_read_sealed, (any)tainhosa_write_sealed,
#else
    0, 0, 0, 0, 0, 0, 0, 0, 0, 0, 0, 0, 0, 0, 0, 0,
#endif
};

int main(void)
{
    return table[0] == table[1];
}
