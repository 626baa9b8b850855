/* The eight calls from C: a flow for two joined nodes, its verdict, a wrong flow's refusal; a job written from lists, its flow, that with signal lists
   and with one set edited; the job with angles, its flow, and the angles read out; two equations. An operator calls, who is refused the angles; they
   are written and read out by their owner. */
#include <stdio.h>
#include <string.h>

#include "bolzsimeg.h"

/* Two nodes and an edge between them; node 0 is the input, node 1 the output; node 0 is measured in plane XY. */
static const uint8_t job[] = {
    2, 0, 0, 0, 1, 0, 2, 2,
    2, 0, 0, 0, 2, 0, 0, 1,
    1, 0, 0, 0, 3, 0, 0,
    1, 0, 0, 0, 4, 0, 1,
    2, 0, 0, 0, 5, 0, 1, 0,
};

static uint8_t work[BOLZ_WORK_BYTES];
static uint8_t flow[BOLZ_MOST_FLOW];

static void tell(const char *call, uint64_t result)
{
    unsigned number = BOLZ_NUMBER(result);
    if (number == 0)
        printf("%s: %u\n", call, (unsigned)result);
    else
        printf("%s: refused %u (a = %u, b = %u): %s\n", call, number, BOLZ_A(result), BOLZ_B(result), bolz_words(number));
}

static void print_bytes(const uint8_t *bytes, uint64_t count)
{
    for (uint64_t i = 0; i < count; i++)
        printf("%02x%s", bytes[i], i + 1 == count ? "\n" : " ");
}

/* The flow gets its signal lists; then node 0 gets the set 1, 2, and its bits in the lists follow; then a bit of the last row is wrong. */
static int with_signals(const uint8_t *path, size_t path_len, size_t flow_len)
{
    static const uint8_t entry[] = {0, 2, 1, 2};
    static uint8_t both[64 + BOLZ_MOST_FLOW];
    uint8_t verdict[6];
    memcpy(both, path, path_len);
    memcpy(both + path_len, flow, flow_len);
    uint64_t added = bolz_add_signals(BOLZ_OPERATOR, both, path_len + flow_len, flow, sizeof flow);
    tell("add signals", added);
    if (BOLZ_NUMBER(added) != 0)
        return 1;
    print_bytes(flow, added);
    memcpy(both + path_len, flow, (size_t)added);
    uint64_t edited = bolz_edit_set(BOLZ_OPERATOR, both, path_len + (size_t)added, entry, sizeof entry, flow, sizeof flow);
    tell("edit", edited);
    if (BOLZ_NUMBER(edited) != 0)
        return 1;
    print_bytes(flow, edited);
    memcpy(both + path_len, flow, (size_t)edited);
    tell("verify", bolz_verify(BOLZ_OPERATOR, both, path_len + (size_t)edited, verdict, sizeof verdict));
    both[path_len + edited - 1] ^= 1;
    tell("verify a wrong list", bolz_verify(BOLZ_OPERATOR, both, path_len + (size_t)edited, verdict, sizeof verdict));
    return 0;
}

/* The path 0-1-2 with input 0 and output 2, measured in XY, as an editor holds it; the first two edges are all it has. */
static const uint8_t edges[] = {2, 1, 0, 1, 1, 0};
static const uint8_t inputs[] = {0}, outputs[] = {2}, measurements[] = {1, 1, 0};

/* The path with the angles 0.25 and 0, which means X: both nodes are then measured in layer 1. The operator gets its flow, and not the angles. */
static int with_angles(void)
{
    static const double values[] = {0.25, 0.0, 0.0};
    uint8_t angles[sizeof values], path[128];
    memcpy(angles, values, sizeof values); /* on a machine that has its lowest byte first */
    uint64_t written = bolz_write_job_angles(BOLZ_OWNER, 3, 2, edges, 4, inputs, 1, outputs, 1, measurements, 3, angles, sizeof angles, path, sizeof path);
    tell("write with angles", written);
    if (BOLZ_NUMBER(written) != 0)
        return 1;
    uint64_t found = bolz_find(BOLZ_OPERATOR, path, (size_t)written, work, sizeof work, flow, sizeof flow);
    tell("find", found);
    if (BOLZ_NUMBER(found) != 0)
        return 1;
    print_bytes(flow, found);
    tell("read angles as operator", bolz_read_angles(BOLZ_OPERATOR, path, (size_t)written, flow, sizeof flow));
    uint64_t read = bolz_read_angles(BOLZ_OWNER, path, (size_t)written, flow, sizeof flow);
    tell("read angles", read);
    if (BOLZ_NUMBER(read) != 0)
        return 1;
    print_bytes(flow, read);
    return 0;
}

static int from_lists(void)
{
    uint8_t path[64];
    tell("write with an edge twice", bolz_write_job(BOLZ_OPERATOR, 3, 2, edges, 6, inputs, 1, outputs, 1, measurements, 3, path, sizeof path));
    uint64_t written = bolz_write_job(BOLZ_OPERATOR, 3, 2, edges, 4, inputs, 1, outputs, 1, measurements, 3, path, sizeof path);
    tell("write", written);
    if (BOLZ_NUMBER(written) != 0)
        return 1;
    print_bytes(path, written);
    uint64_t found = bolz_find(BOLZ_OPERATOR, path, (size_t)written, work, sizeof work, flow, sizeof flow);
    tell("find", found);
    if (BOLZ_NUMBER(found) != 0)
        return 1;
    print_bytes(flow, found);
    return with_signals(path, (size_t)written, (size_t)found);
}

int main(void)
{
    uint64_t found = bolz_find(BOLZ_OPERATOR, job, sizeof job, work, sizeof work, flow, sizeof flow);
    tell("find", found);
    if (BOLZ_NUMBER(found) != 0)
        return 1; /* refused: nothing was written, and found is no count */
    print_bytes(flow, found);

    uint8_t both[sizeof job + sizeof flow];
    memcpy(both, job, sizeof job);
    memcpy(both + sizeof job, flow, (size_t)found);
    uint8_t verdict[6];
    tell("verify", bolz_verify(BOLZ_OPERATOR, both, sizeof job + found, verdict, sizeof verdict));

    both[sizeof job + 9] = 1; /* the high byte of the output's layer */
    tell("verify a wrong flow", bolz_verify(BOLZ_OPERATOR, both, sizeof job + found, verdict, sizeof verdict));

    if (from_lists() != 0 || with_angles() != 0)
        return 1;

    /* y = 1 and x + y = 0, each row with its right side behind two columns */
    uint8_t matrix[2 * BOLZ_ROW_BYTES] = {0};
    uint8_t bits[BOLZ_ROW_BYTES] = {0};
    matrix[0] = 6;
    matrix[BOLZ_ROW_BYTES] = 3;
    tell("solve", bolz_solve(matrix, sizeof matrix, bits, sizeof bits, 2, 2, 1, 0));
    printf("solution: x = %d, y = %d\n", bits[0] & 1, bits[0] >> 1 & 1);
    return 0;
}
