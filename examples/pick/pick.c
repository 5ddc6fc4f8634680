/* Reads left.tab, right.tab and code.lab of a folder and prints the number of readings, 99 standing for 99 or more: what a picking machine
   acts on. A refusal goes to standard error, with status 1; so does a file that cannot be read, with status 2. */
#include <errno.h>
#include <stdio.h>
#include <stdlib.h>
#include <string.h>
#include <forthwn.h>

enum { MOST = 65536 };

static void give_up(const char *path, const char *why) {
    fprintf(stderr, "pick: %s: %s\n", path, why);
    exit(2);
}

/* Up to MOST bytes of a file, and how many there are; a missing one counts as empty. */
static size_t load(const char *folder, const char *name, uint8_t *bytes) {
    char path[4096];
    int length = snprintf(path, sizeof path, "%s/%s", folder, name);
    if (length < 0 || (size_t)length >= sizeof path) give_up(folder, "its name is too long");
    FILE *file = fopen(path, "rb");
    if (!file && errno == ENOENT) return 0;
    if (!file) give_up(path, strerror(errno));
    size_t count = fread(bytes, 1, MOST, file);
    if (ferror(file)) give_up(path, strerror(errno));
    fclose(file);
    return count;
}

/* A label for each two bytes, the lower one first. An odd last byte is half a label; as label 0 it is refused by 9 in its turn. */
static size_t labels(const uint8_t *code, size_t count, uint16_t *string) {
    for (size_t i = 0; i < count / 2; i++) string[i] = (uint16_t)(code[2 * i] | code[2 * i + 1] << 8);
    if (count % 2) string[count / 2] = 0;
    return (count + 1) / 2;
}

/* Which file a refusal is about. */
static const char *place(uint32_t refusal, const uint8_t *left, size_t left_len) {
    if (refusal <= FORTHWN_BAD_WEIGHT) return forthwn_refusal(left, left_len) ? ", in left.tab" : ", in right.tab";
    return refusal == FORTHWN_BAD_CODE ? ", in code.lab" : "";
}

int main(int argc, char **argv) {
    static uint8_t left[MOST], right[MOST], code[MOST];
    static uint16_t string[MOST / 2];
    const char *folder = argc > 1 ? argv[1] : ".";
    size_t left_len = load(folder, "left.tab", left), right_len = load(folder, "right.tab", right);
    size_t string_len = labels(code, load(folder, "code.lab", code), string);
    uint32_t count;
    uint32_t refusal = forthwn_readings(left, left_len, right, right_len, string, string_len, &count);
    if (refusal) {
        fprintf(stderr, "pick: refused %u: %s%s\n", (unsigned)refusal, forthwn_refusal_text(refusal), place(refusal, left, left_len));
        return 1;
    }
    printf("%u\n", (unsigned)count);
    return 0;
}
