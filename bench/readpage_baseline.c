/* readpage in C: the same text for the same dump, by the C baselines and stdio. */
#include "dump_baseline.h"
#include "page_baseline.h"
#include <inttypes.h>
#include <stdio.h>

enum { DUMP = BLOCKS * BLOCK, DATA = 150, LIMIT = 200 };

int main(void) {
    uint8_t dump[DUMP + 1], soft[PAGE_VALUES], data[DATA];
    uint64_t refused = fread(dump, 1, sizeof dump, stdin) == DUMP ? baseline_read_dump(dump, soft) : 1;
    page_outcome page = {0};
    if (!refused) {
        page_baseline_start();
        page = page_baseline_decode(baseline_plain, soft, LIMIT, 0, data);
        refused = page.number + 256 * page.place;
    }
    if (refused) return printf("page refused %u place %u\n", (unsigned)(refused % 256), (unsigned)(refused / 256)) < 0;
    printf("page ok steps %u\n", (unsigned)page.steps);
    for (int i = 0; i < 4; i++)
        printf("level %d changed %d %016" PRIx64 " erased %d %016" PRIx64 "\n", i, page.changed[i], page.changed_marks[i], page.erased[i], page.erased_marks[i]);
    printf("data ");
    for (int k = 0; k < DATA; k++) printf("%02x", data[k]);
    return printf("\n") < 0;
}
