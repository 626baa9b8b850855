/* Holds the header against the library: each refusal by its name, layers of both kinds, signal lists added, edited and verified, angles written, read out
   and searched by, what each role may do and what it leaves, the sizes on both sides, null pointers, the stack that a call needs. With an argument it
   prints the header's words of every number instead, each as the programs print them with a = 3 and b = 7. */
#define _DEFAULT_SOURCE
#include <pthread.h>
#include <stdio.h>
#include <stdlib.h>
#include <string.h>
#include <sys/mman.h>

#include "bolzsimeg.h"

/* Files as hexadecimal digits: the records of two joined nodes, input 0, output 1, node 0 in plane XY, and of their flow. */
#define OPEN "020000000100" "0202"
#define CAUSAL "020000000100" "0201"
#define PAULI "020000000100" "0203"
#define EDGES "020000000200" "0001"
#define INPUTS "010000000300" "00"
#define OUTPUTS "010000000400" "01"
#define MEASURED "020000000500" "0100"
#define LAYERS "040000002100" "01000000"
#define SETS "030000001200" "000101"
#define REST EDGES INPUTS OUTPUTS MEASURED
#define JOB OPEN REST
#define FLOW LAYERS SETS
/* Row 1 of the first list has bit 0: the outcome of node 0 flips node 1. Odd of its set is node 0 itself, and no node flips itself. */
#define ROWS "020000002200" "0001"
#define ODDS "020000002300" "0000"
#define LISTED FLOW ROWS ODDS
/* Angles: 0.25 and the double behind it, 0, -0, 0.5, 1, 1.5 and 2, and the record with the first at node 0. */
#define QUARTER "000000000000d03f"
#define BEHIND "010000000000d03f"
#define NOUGHT "0000000000000000"
#define SIGNED "0000000000000080"
#define HALF "000000000000e03f"
#define ONE "000000000000f03f"
#define THREE_HALVES "000000000000f83f"
#define TWO "0000000000000040"
#define ANGLES "100000002400" QUARTER NOUGHT

#define COUNT(list) (sizeof(list) / sizeof *(list))

/* The owner's role and operators': to a library that looks at some bits only, one of these is the owner. */
static const uint64_t roles[] = {BOLZ_OWNER, BOLZ_OPERATOR, 256, UINT64_C(1) << 32, UINT64_MAX};
static uint64_t role = BOLZ_OWNER; /* of the calls below */
static uint8_t bytes[1024];
static uint8_t work[BOLZ_WORK_BYTES + 1];
static uint8_t out[BOLZ_MOST_FLOW];
static int wrong;

static size_t bytes_of(const char *digits, uint8_t *to)
{
    size_t n = strlen(digits) / 2;
    for (size_t i = 0; i < n; i++) {
        char two[3] = {digits[2 * i], digits[2 * i + 1], 0};
        to[i] = (uint8_t)strtoul(two, NULL, 16);
    }
    return n;
}

static uint64_t find(const char *file, size_t work_len, size_t out_len)
{
    return bolz_find(role, bytes, bytes_of(file, bytes), work, work_len, out, out_len);
}

static uint64_t verify(const char *file)
{
    return bolz_verify(role, bytes, bytes_of(file, bytes), out, sizeof out);
}

static uint64_t added(const char *file, size_t out_len)
{
    return bolz_add_signals(role, bytes, bytes_of(file, bytes), out, out_len);
}

static uint64_t edited(const char *file, const char *entry, size_t out_len)
{
    static uint8_t e[8];
    return bolz_edit_set(role, bytes, bytes_of(file, bytes), e, bytes_of(entry, e), out, out_len);
}

static uint64_t solve(size_t matrix_len, size_t bits_len, size_t cols, size_t side)
{
    static uint8_t matrix[BOLZ_ROW_BYTES] = {1};
    static uint8_t bits[2 * BOLZ_ROW_BYTES];
    return bolz_solve(matrix, matrix_len, bits, bits_len, 1, cols, 1, side);
}

/* The lists of an editor, as hexadecimal digits. */
static uint64_t written(size_t n, size_t mode, const char *edges, const char *inputs, const char *outputs, const char *measured, size_t out_len)
{
    static uint8_t e[8], i[8], o[8], m[8];
    return bolz_write_job(role, n, mode, e, bytes_of(edges, e), i, bytes_of(inputs, i), o, bytes_of(outputs, o), m, bytes_of(measured, m), out, out_len);
}

static uint64_t written_angles(size_t mode, const char *measured, const char *angles, size_t out_len)
{
    static const uint8_t edge[] = {1, 0};
    static uint8_t m[8], a[32];
    return bolz_write_job_angles(role, 2, mode, edge, 2, edge + 1, 1, edge, 1, m, bytes_of(measured, m), a, bytes_of(angles, a), out, out_len);
}

static uint64_t read_out(const char *file, size_t out_len)
{
    return bolz_read_angles(role, bytes, bytes_of(file, bytes), out, out_len);
}

static void want(const char *what, uint64_t result, unsigned number)
{
    if (BOLZ_NUMBER(result) == number)
        return;
    printf("%s, role %lu: %u and not %u\n", what, (unsigned long)role, BOLZ_NUMBER(result), number);
    wrong = 1;
}

/* Are so many bytes, these, the result? */
static void want_bytes(const char *what, uint64_t result, const uint8_t *wanted, size_t count)
{
    if (result == count && memcmp(out, wanted, count) == 0)
        return;
    printf("%s, role %lu: %lu and not %lu, or other bytes\n", what, (unsigned long)role, (unsigned long)result, (unsigned long)count);
    wrong = 1;
}

static void want_file(const char *what, uint64_t result, const char *digits)
{
    static uint8_t wanted[1024];
    want_bytes(what, result, wanted, bytes_of(digits, wanted));
}

/* Is output 1 refused for this layer? */
static void want_layer(const char *what, uint64_t result, unsigned layer)
{
    want(what, result, BOLZ_EXCESSIVE_NON_ZERO_LAYER);
    if (BOLZ_A(result) == 1 && BOLZ_B(result) == layer)
        return;
    printf("%s: node %u in layer %u, and not node 1 in layer %u\n", what, BOLZ_A(result), BOLZ_B(result), layer);
    wrong = 1;
}

static void refusals(void)
{
    size_t w = BOLZ_WORK_BYTES, o = BOLZ_MOST_OUTPUT;
    want("an empty file", find("", w, o), BOLZ_NO_RECORD);
    want("a cut payload", find("020000000100" "02", w, o), BOLZ_CUT_PAYLOAD);
    want("an opening of one byte", find("010000000100" "02", w, o), BOLZ_WRONG_LENGTH);
    want("mode 0", find("020000000100" "0200" REST, w, o), BOLZ_WRONG_OPENING);
    want("node 2 of 2", find(OPEN "020000000200" "0002", w, o), BOLZ_NODE_TOO_LARGE);
    want("an edge 1, 0", find(OPEN "020000000200" "0100", w, o), BOLZ_NOT_ASCENDING);
    want("an output in XY", find(OPEN EDGES INPUTS OUTPUTS "020000000500" "0101", w, o), BOLZ_WRONG_MEASUREMENT);
    want("a byte too many", find(JOB "00", w, o), BOLZ_BYTES_LEFT);
    want("a causal entry without a member", verify(CAUSAL REST LAYERS "020000001200" "0000"), BOLZ_NOT_ONE_MEMBER);
    want("a causal search", find(CAUSAL REST, w, o), BOLZ_MODE_NOT_SEARCHED);
    want("no right side 1", solve(BOLZ_ROW_BYTES, BOLZ_ROW_BYTES, 1, 1), BOLZ_NO_SUCH_EQUATION);
    want("an input in the set of 0", verify(OPEN EDGES "010000000300" "01" OUTPUTS MEASURED FLOW), BOLZ_INVALID_FLOW_CODOMAIN);
    want("no set", verify(JOB LAYERS "000000001200"), BOLZ_INVALID_FLOW_DOMAIN);
    want_layer("case N", verify(JOB "040000002100" "01000100" SETS), 1);
    want("layer 0", verify(JOB "040000002100" "00000000" SETS), BOLZ_EXCESSIVE_ZERO_LAYER);
    want("an entry of an output", verify(JOB LAYERS "050000001200" "0001010100"), BOLZ_INVALID_MEASUREMENT_SPEC);
    want("no edge, mode 1", verify(CAUSAL "000000000200" INPUTS OUTPUTS MEASURED FLOW), BOLZ_INCONSISTENT_FLOW_ORDER);
    want("a set for YZ", verify(OPEN EDGES INPUTS OUTPUTS "020000000500" "0200" FLOW), BOLZ_INCONSISTENT_FLOW_PLANE);
    want("19 bytes", find(JOB, w, 19), 0);
    want("18 bytes", find(JOB, w, 18), BOLZ_RESULT_TOO_LONG);
}

/* Layers of both kinds, with what a refusal says of the output's. */
static void layers(void)
{
    want("kind 0011", verify(JOB "020000001100" "0100" SETS), 0);
    want("kind 0021", verify(JOB FLOW), 0);
    want("kind 0020", verify(JOB "040000002000" "01000000" SETS), BOLZ_NO_RECORD);
    want("0011 with two bytes a node", verify(JOB "040000001100" "01000000" SETS), BOLZ_WRONG_LENGTH);
    want("0021 with a byte a node", verify(JOB "020000002100" "0100" SETS), BOLZ_WRONG_LENGTH);
    want("layer 256", verify(JOB "040000002100" "00010000" SETS), 0);
    want("layer 65,535", verify(JOB "040000002100" "ffff0000" SETS), 0);
    want_layer("0011, an output in layer 255", verify(JOB "020000001100" "01ff" SETS), 255);
    want_layer("an output in layer 255", verify(JOB "040000002100" "0100ff00" SETS), 255);
    want_layer("an output in layer 256", verify(JOB "040000002100" "01000001" SETS), 256);
    want_layer("an output in layer 65,535", verify(JOB "040000002100" "0100ffff" SETS), 65535);
}

static void refused_lists(void)
{
    size_t o = BOLZ_MOST_OUTPUT;
    want("mode 258", written(2, 258, "0100", "00", "01", "0100", o), BOLZ_WRONG_OPENING);
    want("half an edge", written(2, 2, "010001", "00", "01", "0100", o), BOLZ_WRONG_LENGTH);
    want("a measurement too few", written(2, 2, "0100", "00", "01", "01", o), BOLZ_WRONG_LENGTH);
    want("edge to node 2 of 2", written(2, 2, "0200", "00", "01", "0100", o), BOLZ_NODE_TOO_LARGE);
    want("input 2 of 2", written(2, 2, "0100", "02", "01", "0100", o), BOLZ_NODE_TOO_LARGE);
    want("output 2 of 2", written(2, 2, "0100", "00", "02", "0100", o), BOLZ_NODE_TOO_LARGE);
    want("a listed output in XY", written(2, 2, "0100", "00", "01", "0101", o), BOLZ_WRONG_MEASUREMENT);
    want("a loop", written(2, 2, "0101", "00", "01", "0100", o), BOLZ_GIVEN_TWICE);
    want("an edge twice", written(2, 2, "01000001", "00", "01", "0100", o), BOLZ_GIVEN_TWICE);
    want("an input twice", written(2, 2, "0100", "0000", "01", "0100", o), BOLZ_GIVEN_TWICE);
    want("an output twice", written(2, 2, "0100", "00", "0101", "0100", o), BOLZ_GIVEN_TWICE);
    want("38 bytes", written(2, 2, "0100", "00", "01", "0100", 38), 0);
    want("37 bytes", written(2, 2, "0100", "00", "01", "0100", 37), BOLZ_RESULT_TOO_LONG);
}

static void lists(void)
{
    want("both lists", verify(JOB LISTED), 0);
    want("another row", verify(JOB FLOW "020000002200" "0000" ODDS), BOLZ_WRONG_SIGNALS);
    want("another row of Odd", verify(JOB FLOW ROWS "020000002300" "0001"), BOLZ_WRONG_SIGNALS);
    want("a bit of padding", verify(JOB FLOW "020000002200" "0005" ODDS), BOLZ_WRONG_SIGNALS);
    want("a set for YZ, and another row", verify(OPEN EDGES INPUTS OUTPUTS "020000000500" "0200" FLOW "020000002200" "0000" ODDS), BOLZ_INCONSISTENT_FLOW_PLANE);
    want("0022 alone", verify(JOB FLOW ROWS), BOLZ_NO_RECORD);
    want("0023 alone", verify(JOB FLOW ODDS), BOLZ_BYTES_LEFT);
    want("a row too few", verify(JOB FLOW "010000002200" "00"), BOLZ_WRONG_LENGTH);
    want("a cut list", verify(JOB FLOW "020000002200" "00"), BOLZ_CUT_PAYLOAD);
}

static void lists_added(void)
{
    size_t o = BOLZ_MOST_FLOW;
    want_file("lists added", added(JOB FLOW, o), LISTED);
    want_file("lists added anew", added(JOB FLOW "020000002200" "ffff" "020000002300" "ffff", o), LISTED);
    want_file("lists added to 0011", added(JOB "020000001100" "0100" SETS, o), "020000001100" "0100" SETS ROWS ODDS);
    want_file("an entry of an output", added(JOB LAYERS "060000001200" "000101" "010100", o), LAYERS "060000001200" "000101" "010100" "020000002200" "0201" ODDS);
    want("lists for a job alone", added(JOB, o), BOLZ_NO_RECORD);
    want("a byte behind the flow", added(JOB FLOW "00", o), BOLZ_BYTES_LEFT);
    want("a causal entry without a member, to add", added(CAUSAL REST LAYERS "020000001200" "0000", o), BOLZ_NOT_ONE_MEMBER);
    want("35 bytes for lists", added(JOB FLOW, 35), 0);
    want("34 bytes for lists", added(JOB FLOW, 34), BOLZ_RESULT_TOO_LONG);
}

static void sets_edited(void)
{
    size_t o = BOLZ_MOST_FLOW;
    want_file("an entry replaced", edited(JOB FLOW, "0000", o), LAYERS "020000001200" "0000");
    want_file("an entry put in", edited(JOB FLOW, "010100", o), LAYERS "060000001200" "000101" "010100");
    want_file("an entry put in first", edited(JOB LAYERS "030000001200" "010100", "000101", o), LAYERS "060000001200" "000101" "010100");
    want_file("bits that follow", edited(JOB LISTED, "0000", o), LAYERS "020000001200" "0000" "020000002200" "0000" ODDS);
    want_file("bits that keep", edited(JOB FLOW "020000002200" "ff00" "020000002300" "00ff", "000101", o), FLOW "020000002200" "fe01" "020000002300" "00fe");
    want("no entry", edited(JOB FLOW, "", o), BOLZ_WRONG_LENGTH);
    want("an entry without its count", edited(JOB FLOW, "00", o), BOLZ_WRONG_LENGTH);
    want("a member too few", edited(JOB FLOW, "0001", o), BOLZ_WRONG_LENGTH);
    want("a member too many", edited(JOB FLOW, "00010101", o), BOLZ_WRONG_LENGTH);
    want("an entry of node 2 of 2", edited(JOB FLOW, "020101", o), BOLZ_NODE_TOO_LARGE);
    want("member 2 of 2", edited(JOB FLOW, "000102", o), BOLZ_NODE_TOO_LARGE);
    want("members 1, 0", edited(JOB FLOW, "00020100", o), BOLZ_NOT_ASCENDING);
    want("a causal entry, lent without a member", edited(CAUSAL REST FLOW, "0000", o), BOLZ_NOT_ONE_MEMBER);
    want("a byte behind the flow, and no entry", edited(JOB FLOW "00", "", o), BOLZ_BYTES_LEFT);
    want("19 bytes for an entry", edited(JOB FLOW, "000101", 19), 0);
    want("18 bytes for an entry", edited(JOB FLOW, "000101", 18), BOLZ_RESULT_TOO_LONG);
}

static void angles(void)
{
    size_t w = BOLZ_WORK_BYTES, o = BOLZ_MOST_JOB;
    want_file("angles written", written_angles(2, "0100", QUARTER NOUGHT, o), JOB ANGLES);
    want("angles in mode 3", written_angles(3, "0100", QUARTER NOUGHT, o), BOLZ_WRONG_OPENING);
    want("a measurement not allowed, and angles in mode 3", written_angles(3, "0101", QUARTER NOUGHT, o), BOLZ_WRONG_MEASUREMENT);
    want("an angle too few", written_angles(2, "0100", QUARTER, o), BOLZ_WRONG_LENGTH);
    want("an angle of 2", written_angles(2, "0100", TWO NOUGHT, o), BOLZ_WRONG_ANGLE);
    want("60 bytes", written_angles(2, "0100", SIGNED NOUGHT, 60), 0);
    want("59 bytes", written_angles(2, "0100", SIGNED NOUGHT, 59), BOLZ_RESULT_TOO_LONG);
    want_file("angles read out", read_out(JOB ANGLES, o), ANGLES);
    want("no angles", read_out(JOB, o), BOLZ_NO_RECORD);
    want("angles in a job of mode 3", read_out(PAULI REST ANGLES, o), BOLZ_NO_RECORD);
    want("angles and a flow", read_out(JOB ANGLES FLOW, o), BOLZ_BYTES_LEFT);
    want("22 bytes", read_out(JOB ANGLES, 22), 0);
    want("21 bytes", read_out(JOB ANGLES, 21), BOLZ_RESULT_TOO_LONG);
    want("negative zero at an output", find(JOB "100000002400" QUARTER SIGNED, w, o), BOLZ_WRONG_ANGLE);
    want("angles before the measurements", find(OPEN EDGES INPUTS OUTPUTS ANGLES MEASURED, w, o), BOLZ_NO_RECORD);
    want_file("a flow by ordinary angles", find(JOB ANGLES, w, o), FLOW);
    want("its verdict", verify(JOB ANGLES FLOW), 0);
    want("layer 0, with angles", verify(JOB ANGLES "040000002100" "00000000" SETS), BOLZ_INCONSISTENT_FLOW_ORDER);
}

/* n nodes, all of them outputs, and no edge. */
static uint64_t find_nodes(unsigned n)
{
    uint8_t *file = bytes;
    size_t at = bytes_of("020000000100" "0002" "000000000200" "000000000300", file);
    file[6] = (uint8_t)n;
    bytes_of("000000000400", file + at);
    file[at] = (uint8_t)n;
    for (unsigned u = 0; u < n; u++)
        file[at + 6 + u] = (uint8_t)u;
    at += 6 + n;
    bytes_of("000000000500", file + at);
    file[at] = (uint8_t)n;
    memset(file + at + 6, 0, n);
    return bolz_find(role, file, at + 6 + n, work, BOLZ_WORK_BYTES, out, sizeof out);
}

/* n nodes, all of them inputs and outputs, each joined to each, the last ones first: the longest job file of n nodes. */
static uint64_t written_nodes(unsigned n, size_t out_len)
{
    static const uint8_t zeros[BOLZ_ANGLE_BYTES * (BOLZ_MOST_NODES + 1)];
    static uint8_t edges[(BOLZ_MOST_NODES + 1) * BOLZ_MOST_NODES], nodes[BOLZ_MOST_NODES + 1], measured[BOLZ_MOST_NODES + 1];
    size_t at = 0;
    for (unsigned a = n; a-- > 0;) {
        nodes[n - 1 - a] = (uint8_t)a;
        for (unsigned b = a; b-- > 0; at += 2) {
            edges[at] = (uint8_t)a;
            edges[at + 1] = (uint8_t)b;
        }
    }
    return bolz_write_job_angles(role, n, 2, edges, at, nodes, n, nodes, n, measured, n, zeros, BOLZ_ANGLE_BYTES * n, out, out_len);
}

/* The most nodes, no edge, and every node in every set; the job's 160 bytes, and behind it the longest flow file without lists. */
static size_t full_sets(uint8_t *file)
{
    static const unsigned n = BOLZ_MOST_NODES;
    size_t at = bytes_of("020000000100" "8002" "000000000200" "000000000300" "000000000400" "800000000500", file);
    memset(file + at, 1, n);
    at += n;
    at += bytes_of("000100002100", file + at);
    memset(file + at, 0, 2 * n);
    at += 2 * n;
    at += bytes_of("004100001200", file + at);
    for (unsigned u = 0; u < n; u++) {
        file[at++] = (uint8_t)u;
        file[at++] = (uint8_t)n;
        for (unsigned k = 0; k < n; k++)
            file[at++] = (uint8_t)k;
    }
    return at;
}

static void longest_flow(void)
{
    static uint8_t file[160 + BOLZ_MOST_FLOW], entry[2 + BOLZ_MOST_NODES];
    size_t len = full_sets(file), most = BOLZ_MOST_FLOW;
    want("a byte less than the longest flow", bolz_add_signals(role, file, len, out, most - 1), BOLZ_RESULT_TOO_LONG);
    want_bytes("the longest flow without its lists", bolz_add_signals(role, file, len, out, most) - (most - (len - 160)), file + 160, len - 160);
    memcpy(entry, file + 160 + 6 + 2 * BOLZ_MOST_NODES + 6, sizeof entry);
    memcpy(file + 160, out, most);
    want_bytes("the longest flow anew", bolz_add_signals(role, file, sizeof file, out, most), file + 160, most);
    want("its first entry, a byte less", bolz_edit_set(role, file, sizeof file, entry, sizeof entry, out, most - 1), BOLZ_RESULT_TOO_LONG);
    want_bytes("its first entry", bolz_edit_set(role, file, sizeof file, entry, sizeof entry, out, most), file + 160, most);
}

static void sizes(void)
{
    size_t o = BOLZ_MOST_OUTPUT, r = BOLZ_ROW_BYTES;
    want("the most nodes", find_nodes(BOLZ_MOST_NODES), 0);
    want("one node more", find_nodes(BOLZ_MOST_NODES + 1), BOLZ_WRONG_OPENING);
    want("the longest job", written_nodes(BOLZ_MOST_NODES, BOLZ_MOST_JOB), 0);
    want("a byte less than the longest job", written_nodes(BOLZ_MOST_NODES, BOLZ_MOST_JOB - 1), BOLZ_RESULT_TOO_LONG);
    want("a job of one node more", written_nodes(BOLZ_MOST_NODES + 1, BOLZ_MOST_JOB), BOLZ_WRONG_OPENING);
    want("the work buffer", find(JOB, BOLZ_WORK_BYTES, o), 0);
    want("a byte less", find(JOB, BOLZ_WORK_BYTES - 1, o), BOLZ_WRONG_SHAPE);
    want("a byte more", find(JOB, BOLZ_WORK_BYTES + 1, o), BOLZ_WRONG_SHAPE);
    want("a row", solve(r, r, 1, 0), 0);
    want("a row and a byte less", solve(r - 1, r, 1, 0), BOLZ_WRONG_SHAPE);
    want("out bits and a byte more", solve(r, r + 1, 1, 0), BOLZ_WRONG_SHAPE);
    want("no column", solve(r, r, 0, 0), 0);
    want("columns of a row", solve(r, r, 8 * r - 1, 0), 0);
    want("a column more", solve(r, r, 8 * r, 0), BOLZ_WRONG_SHAPE);
}

static void null_pointers(void)
{
    want("nothing to find", bolz_find(role, NULL, 0, NULL, 0, NULL, 0), BOLZ_NO_RECORD);
    want("nothing to verify", bolz_verify(role, NULL, 0, NULL, 0), BOLZ_NO_RECORD);
    want("nothing to write", bolz_write_job(role, 0, 0, NULL, 0, NULL, 0, NULL, 0, NULL, 0, NULL, 0), BOLZ_WRONG_OPENING);
    want("no room", bolz_write_job(role, 0, 1, NULL, 0, NULL, 0, NULL, 0, NULL, 0, NULL, 0), BOLZ_RESULT_TOO_LONG);
    want("no node", bolz_write_job(role, 0, 1, NULL, 0, NULL, 0, NULL, 0, NULL, 0, out, sizeof out), 0);
    want("no angle", bolz_write_job_angles(role, 0, 2, NULL, 0, NULL, 0, NULL, 0, NULL, 0, NULL, 0, out, sizeof out), 0);
    want("nothing to read out", bolz_read_angles(role, NULL, 0, NULL, 0), BOLZ_NO_RECORD);
    want("nothing to add to", bolz_add_signals(role, NULL, 0, NULL, 0), BOLZ_NO_RECORD);
    want("nothing to edit", bolz_edit_set(role, NULL, 0, NULL, 0, NULL, 0), BOLZ_NO_RECORD);
    want("nothing to put in", bolz_edit_set(role, bytes, bytes_of(JOB FLOW, bytes), NULL, 0, NULL, 0), BOLZ_WRONG_LENGTH);
    want("no room for lists", bolz_add_signals(role, bytes, bytes_of(JOB FLOW, bytes), NULL, 0), BOLZ_RESULT_TOO_LONG);
    want("nothing to solve", bolz_solve(NULL, 0, NULL, 0, 0, 0, 0, 0), BOLZ_WRONG_SHAPE);
}

/* ---- Roles: the whole result and every byte of the buffers. */

#define PAINT 0xA5

/* What a call leaves. */
struct left {
    uint64_t result;
    uint8_t work[sizeof work], out[sizeof out];
};

/* A call on a file or a list in digits, with so much room for its result. */
typedef uint64_t call_on(const char *digits, size_t room);

static uint64_t to_find(const char *file, size_t room) { return find(file, BOLZ_WORK_BYTES, room); }
static uint64_t to_verify(const char *file, size_t room) { return bolz_verify(role, bytes, bytes_of(file, bytes), out, room); }
static uint64_t to_edit(const char *file, size_t room) { return edited(file, "000101", room); }
static uint64_t to_write(const char *measured, size_t room) { return written(2, 2, "0100", "00", "01", measured, room); }
static uint64_t to_write_angles(const char *angles, size_t room) { return written_angles(2, "0100", angles, room); }
static uint64_t to_write_wrongly(const char *angles, size_t room) { return written_angles(3, "0101", angles, room); }

static void leave(struct left *left, uint64_t as, call_on *call, const char *digits, size_t room)
{
    memset(work, PAINT, sizeof work);
    memset(out, PAINT, sizeof out);
    role = as;
    left->result = call(digits, room);
    role = BOLZ_OWNER;
    memcpy(left->work, work, sizeof work);
    memcpy(left->out, out, sizeof out);
}

static void want_same(const char *what, uint64_t as, const struct left *wanted, const struct left *left)
{
    int buffers = memcmp(left->work, wanted->work, sizeof work) == 0 && memcmp(left->out, wanted->out, sizeof out) == 0;
    if (left->result == wanted->result && buffers)
        return;
    printf("%s, role %lu: %lx and not %lx%s\n", what, (unsigned long)as, (unsigned long)left->result, (unsigned long)wanted->result,
           buffers ? "" : ", or other bytes");
    wrong = 1;
}

static struct left first, second;
static const size_t rooms[] = {sizeof out, 3, 0};

/* Whatever the role, the call leaves what it leaves to the owner. */
static void open_to_all(const char *what, call_on *call, const char *const *all, size_t count)
{
    for (size_t f = 0; f < count; f++)
        for (size_t m = 0; m < COUNT(rooms); m++) {
            leave(&first, BOLZ_OWNER, call, all[f], rooms[m]);
            for (size_t i = 0; i < COUNT(roles); i++) {
                leave(&second, roles[i], call, all[f], rooms[m]);
                want_same(what, roles[i], &first, &second);
            }
        }
}

/* An operator gets 24, a = b = 0, before any other question, and no byte changes. */
static void for_the_owner(const char *what, call_on *call, const char *const *all, size_t count)
{
    first.result = (uint64_t)BOLZ_NOT_THE_OWNER << 32;
    memset(first.work, PAINT, sizeof work);
    memset(first.out, PAINT, sizeof out);
    for (size_t f = 0; f < count; f++)
        for (size_t m = 0; m < COUNT(rooms); m++)
            for (size_t i = 1; i < COUNT(roles); i++) {
                leave(&second, roles[i], call, all[f], rooms[m]);
                want_same(what, roles[i], &first, &second);
            }
}

/* Two jobs that differ in one angle and infer the same, alone and with a flow behind them, leave an operator the same. */
static void hidden(const char *plane, const char *angle, const char *other)
{
    static const char *const flows[] = {"", FLOW, LISTED, "040000002100" "00000000" SETS};
    static call_on *const calls[] = {to_find, to_verify, added, to_edit};
    static char one[512], two[512];
    for (size_t f = 0; f < COUNT(flows); f++) {
        snprintf(one, sizeof one, OPEN EDGES INPUTS OUTPUTS "020000000500%s00" "100000002400%s" NOUGHT "%s", plane, angle, flows[f]);
        snprintf(two, sizeof two, OPEN EDGES INPUTS OUTPUTS "020000000500%s00" "100000002400%s" NOUGHT "%s", plane, other, flows[f]);
        for (size_t c = 0; c < COUNT(calls); c++)
            for (size_t i = 1; i < COUNT(roles); i++) {
                leave(&first, roles[i], calls[c], one, sizeof out);
                leave(&second, roles[i], calls[c], two, sizeof out);
                want_same(two, roles[i], &first, &second);
            }
    }
}

static void by_roles(void)
{
    static const char *const files[] = {
        "", OPEN, JOB, JOB "00", CAUSAL REST, PAULI REST, PAULI REST ANGLES, JOB ANGLES, JOB ANGLES ANGLES, JOB "100000002400" TWO NOUGHT,
        JOB FLOW, JOB LISTED, PAULI REST LISTED, CAUSAL REST FLOW, JOB ANGLES FLOW, JOB ANGLES LISTED,
    };
    static const char *const measurements[] = {"0100", "0101", ""};
    static const char *const all_angles[] = {QUARTER NOUGHT, TWO NOUGHT, QUARTER, ""};
    static const char *const planes[] = {"01", "02", "03"};
    open_to_all("find", to_find, files, COUNT(files));
    open_to_all("verify", to_verify, files, COUNT(files));
    open_to_all("add signals", added, files, COUNT(files));
    open_to_all("edit", to_edit, files, COUNT(files));
    open_to_all("write", to_write, measurements, COUNT(measurements));
    for_the_owner("read angles", read_out, files, COUNT(files));
    for_the_owner("write with angles", to_write_angles, all_angles, COUNT(all_angles));
    for_the_owner("write with angles, wrong lists", to_write_wrongly, all_angles, COUNT(all_angles));
    for (size_t i = 1; i < COUNT(roles); i++) {
        role = roles[i];
        want("no bytes to read out", bolz_read_angles(role, NULL, 0, NULL, 0), BOLZ_NOT_THE_OWNER);
        want("no node to write", bolz_write_job_angles(role, 0, 2, NULL, 0, NULL, 0, NULL, 0, NULL, 0, NULL, 0, NULL, 0), BOLZ_NOT_THE_OWNER);
        want("too many nodes", bolz_write_job_angles(role, SIZE_MAX, SIZE_MAX, NULL, 0, NULL, 0, NULL, 0, NULL, 0, NULL, 0, NULL, 0), BOLZ_NOT_THE_OWNER);
    }
    role = BOLZ_OWNER;
    for (size_t p = 0; p < COUNT(planes); p++) {
        hidden(planes[p], QUARTER, BEHIND);
        hidden(planes[p], "0100000000000000", "ffffffffffffff3f"); /* the least and the greatest that are not special */
        hidden(planes[p], NOUGHT, SIGNED);
        hidden(planes[p], NOUGHT, ONE);
        hidden(planes[p], HALF, THREE_HALVES);
    }
}

/* ---- The stack: each call runs in a thread whose stack was painted. */

#define STACK (1 << 20)
static char *stack;

static void *idle(void *nothing) { return nothing; }
static void *in_find(void *file) { find(file, BOLZ_WORK_BYTES, sizeof out); return NULL; }
static void *in_verify(void *file) { verify(file); return NULL; }
static void *in_add(void *file) { added(file, sizeof out); return NULL; }
static void *in_edit(void *file) { edited(file, "000101", sizeof out); return NULL; }
static void *in_write(void *file) { written_nodes(BOLZ_MOST_NODES, BOLZ_MOST_JOB); return file; }
static void *in_read_out(void *file) { read_out(file, sizeof out); return NULL; }
static void *in_solve(void *file) { solve(BOLZ_ROW_BYTES, BOLZ_ROW_BYTES, 1, 0); return file; }

static long used(void *(*call)(void *), void *file)
{
    pthread_attr_t attr;
    pthread_t thread;
    long at = 0;
    memset(stack, 0x5A, STACK);
    if (pthread_attr_init(&attr) || pthread_attr_setstack(&attr, stack, STACK) || pthread_create(&thread, &attr, call, file) || pthread_join(thread, NULL))
        exit(1);
    while (at < STACK && stack[at] == 0x5A)
        at++;
    return STACK - at;
}

static void stack_of(const char *name, void *(*call)(void *), char *first, char *second, char *third, long most)
{
    long bytes = used(call, first);
    if (second && used(call, second) > bytes)
        bytes = used(call, second);
    if (third && used(call, third) > bytes)
        bytes = used(call, third);
    bytes -= used(idle, NULL);
    printf("stack of %s: %s %ld bytes\n", name, bytes > most ? "more than" : "at most", most);
    if (bytes > most)
        wrong = 1;
    if (getenv("TELL"))
        fprintf(stderr, "%s: %ld\n", name, bytes);
}

static void words(void)
{
    for (unsigned number = 1; number <= 255; number++) {
        printf("refused %u: ", number);
        for (const char *c = bolz_words(number); *c; c++)
            if (*c == 'A' || *c == 'B')
                printf("%d", *c == 'A' ? 3 : 7);
            else
                putchar(*c);
        putchar('\n');
    }
}

int main(int count, char **arguments)
{
    (void)arguments;
    if (count > 1) {
        words();
        return 0;
    }
    for (size_t i = 0; i < COUNT(roles); i++) {
        role = roles[i];
        refusals();
        layers();
        refused_lists();
        lists();
        lists_added();
        sets_edited();
    }
    role = BOLZ_OWNER;
    angles();
    by_roles();
    sizes();
    longest_flow();
    null_pointers();
    stack = mmap(NULL, STACK, PROT_READ | PROT_WRITE, MAP_PRIVATE | MAP_ANONYMOUS, -1, 0);
    stack_of("bolz_find", in_find, JOB, PAULI REST, JOB ANGLES, BOLZ_FIND_STACK);
    stack_of("bolz_verify", in_verify, JOB ANGLES LISTED, PAULI REST LISTED, CAUSAL REST LISTED, BOLZ_VERIFY_STACK);
    stack_of("bolz_add_signals", in_add, JOB FLOW, JOB LISTED, JOB ANGLES FLOW, BOLZ_ADD_SIGNALS_STACK);
    stack_of("bolz_edit_set", in_edit, JOB FLOW, JOB LISTED, JOB ANGLES LISTED, BOLZ_EDIT_SET_STACK);
    stack_of("bolz_write_job", in_write, NULL, NULL, NULL, BOLZ_WRITE_JOB_STACK);
    stack_of("bolz_read_angles", in_read_out, JOB ANGLES, NULL, NULL, BOLZ_READ_ANGLES_STACK);
    stack_of("bolz_solve", in_solve, NULL, NULL, NULL, BOLZ_SOLVE_STACK);
    puts(wrong ? "the header and the library differ" : "the header and the library agree");
    return wrong;
}
