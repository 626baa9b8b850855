/* The table compiler for programs in C99 or C++. Link with libcapi.a, made by `bash tools/build capi_c` for x86_64-unknown-linux-gnu.

   For the caller to see to, since no proof reaches beyond the calls:
   - A pointer and its length name that many bytes that may be read, or for a buffer that is not const, read and written. With length 0 the
     pointer may be null.
   - A buffer that is not const overlaps no other buffer of the same call.
   - A call needs stack: no more than the sizes below (measured; `bash examples/c/run` measures again and compares).
   - The role is what the caller says; the library does not check who the caller is.

   What a call leaves. A refusal leaves every buffer as it was, but RESULT_TOO_LONG (20) leaves the finder's work buffer all zero. An answer leaves
   the result at the front of the result buffer, the bytes behind it as they were, and the finder's work buffer all zero. No call allocates, and
   none keeps a pointer. */
#ifndef BOLZSIMEG_H
#define BOLZSIMEG_H

#include <stddef.h>
#include <stdint.h>

#ifdef __cplusplus
extern "C" {
#endif

/* Lengths are 64 bits wide. */
typedef char bolz_size_t_has_64_bits[sizeof(size_t) == 8 ? 1 : -1];

/* Grows with each change of a call, of a file's format, of a size or of a refusal. */
#define BOLZ_VERSION 7

#define BOLZ_MOST_NODES 128
#define BOLZ_ROW_BYTES 16      /* a row of the work matrix, and the solver's out bits, lowest bit first */
#define BOLZ_WORK_BYTES 2048   /* the finder's work buffer, exactly */
#define BOLZ_ANGLE_BYTES 8     /* an angle: an IEEE double in units of pi, lowest byte first */
#define BOLZ_MOST_OUTPUT 16908 /* no result of finder or verifier is longer */
#define BOLZ_MOST_FLOW 21016   /* no flow file is longer, its signal lists included */
#define BOLZ_MOST_JOB 17702    /* no job file is longer, its angles included */

/* Roles, the first argument of every call but the solver's, which takes no job. */
#define BOLZ_OWNER 0    /* may do everything */
#define BOLZ_OPERATOR 1 /* may not read angles out or write them; any other number is an operator too, and all 64 bits count */

/* The stack that a call needs, in bytes, measured with some room. */
#define BOLZ_FIND_STACK 20480
#define BOLZ_VERIFY_STACK 16384
#define BOLZ_ADD_SIGNALS_STACK 16384
#define BOLZ_EDIT_SET_STACK 16384
#define BOLZ_WRITE_JOB_STACK 4096 /* with angles too */
#define BOLZ_READ_ANGLES_STACK 1024
#define BOLZ_SOLVE_STACK 1024

/* Refusals, numbered as the questions that they answer with 'no'. */
enum bolz_refusal {
    BOLZ_NO_RECORD = 1,
    BOLZ_CUT_PAYLOAD = 2,
    BOLZ_WRONG_LENGTH = 3,
    BOLZ_WRONG_OPENING = 4,
    BOLZ_NODE_TOO_LARGE = 5,
    BOLZ_NOT_ASCENDING = 6,
    BOLZ_WRONG_MEASUREMENT = 7,
    BOLZ_BYTES_LEFT = 8,
    BOLZ_NOT_ONE_MEMBER = 9,
    BOLZ_MODE_NOT_SEARCHED = 10,
    BOLZ_WRONG_SHAPE = 11,
    BOLZ_NO_SUCH_EQUATION = 12,
    BOLZ_INVALID_FLOW_CODOMAIN = 13,
    BOLZ_INVALID_FLOW_DOMAIN = 14,
    BOLZ_EXCESSIVE_NON_ZERO_LAYER = 15,
    BOLZ_EXCESSIVE_ZERO_LAYER = 16,
    BOLZ_INVALID_MEASUREMENT_SPEC = 17,
    BOLZ_INCONSISTENT_FLOW_ORDER = 18,
    BOLZ_INCONSISTENT_FLOW_PLANE = 19,
    BOLZ_RESULT_TOO_LONG = 20,
    BOLZ_GIVEN_TWICE = 21,
    BOLZ_WRONG_SIGNALS = 22,
    BOLZ_WRONG_ANGLE = 23,
    BOLZ_NOT_THE_OWNER = 24
};

/* A result is a refusal if its number is not 0: number * 2^32 + a * 2^16 + b. */
#define BOLZ_NUMBER(result) ((unsigned)((result) >> 32))
#define BOLZ_A(result) ((unsigned)((result) >> 16 & 0xFFFF))
#define BOLZ_B(result) ((unsigned)((result) & 0xFFFF))

/* A refusal's words, the same as the programs write: A stands for a, B for b. */
static inline const char *bolz_words(unsigned number)
{
    switch (number) {
    case BOLZ_NO_RECORD: return "the next record is missing or of another kind";
    case BOLZ_CUT_PAYLOAD: return "the payload of a record is cut off";
    case BOLZ_WRONG_LENGTH: return "the length of a record, list or entry does not suit its kind";
    case BOLZ_WRONG_OPENING: return "the number of nodes or the mode is not allowed";
    case BOLZ_NODE_TOO_LARGE: return "a node is not below the number of nodes";
    case BOLZ_NOT_ASCENDING: return "nodes or edges are not strictly ascending";
    case BOLZ_WRONG_MEASUREMENT: return "a measurement byte is not allowed";
    case BOLZ_BYTES_LEFT: return "bytes are left after the last record";
    case BOLZ_NOT_ONE_MEMBER: return "a causal entry does not have exactly one member";
    case BOLZ_MODE_NOT_SEARCHED: return "only modes 2 and 3 have a search";
    case BOLZ_WRONG_SHAPE: return "a lent buffer or matrix has the wrong shape";
    case BOLZ_NO_SUCH_EQUATION: return "there is no right side of the equation's number";
    case BOLZ_INVALID_FLOW_CODOMAIN: return "the set of node A holds an input other than A";
    case BOLZ_INVALID_FLOW_DOMAIN: return "node A has a set and is an output, or neither";
    case BOLZ_EXCESSIVE_NON_ZERO_LAYER: return "output A is in layer B, not in layer 0";
    case BOLZ_EXCESSIVE_ZERO_LAYER: return "node A is no output and is in layer 0";
    case BOLZ_INVALID_MEASUREMENT_SPEC: return "node A has an entry and no measurement";
    case BOLZ_INCONSISTENT_FLOW_ORDER: return "node B is not later than node A, or in mode 1 not its neighbour";
    case BOLZ_INCONSISTENT_FLOW_PLANE: return "node A's set does not suit its or a Y measurement";
    case BOLZ_RESULT_TOO_LONG: return "the result does not fit the lent buffer";
    case BOLZ_GIVEN_TWICE: return "a loop, or an edge or node given twice";
    case BOLZ_WRONG_SIGNALS: return "the signal lists are not those of the flow";
    case BOLZ_WRONG_ANGLE: return "an angle is not from 0 to below 2, or at an output not positive zero";
    case BOLZ_NOT_THE_OWNER: return "only the owner may read angles out or write them";
    default: return "unknown question";
    }
}

/* A job in mode 2 may have a last record 0024 with an angle for each node, positive zero at outputs. It is then searched and verified in mode 3 with the
   measurements that the angles infer: exactly 0 or 1 means X in XY and Z in YZ and XZ, exactly 0.5 or 1.5 means Y in XY and YZ and X in XZ, and other
   angles keep their plane.

   The angles are the owner's algorithm. An operator gets NOT_THE_OWNER (24) from bolz_read_angles and bolz_write_job_angles before any other question,
   whatever the bytes. Every other call is open to both, and the role changes nothing in it. Two jobs that pass reading, differ only in angles and have
   the same inferred measurements give an operator the same result and the same bytes in every buffer. What does show is that there are angles, and
   which of them are 0 or 1, which 0.5 or 1.5, and which are others; and a job file has its angles in plain bytes. */

/* The finder: a job file in, a flow file with layers of kind 0021 or 0013 ('no flow') out. The count of bytes written, or a refusal. */
uint64_t bolz_find(uint64_t role, const uint8_t *file, size_t file_len, uint8_t *work, size_t work_len, uint8_t *out, size_t out_len);

/* The verifier: a job file followed by a flow file in, its layers of kind 0021, two bytes each, or 0011, a byte each, with both signal lists (0022
   and 0023) or neither; 0014 ('accepted') out. The count of bytes written, or a refusal. */
uint64_t bolz_verify(uint64_t role, const uint8_t *file, size_t file_len, uint8_t *out, size_t out_len);

/* Adds the signal lists: a job file followed by a flow file in, the flow file with both lists out, built anew where they stand; layers and sets are
   kept byte for byte, and not verified. A list is n rows of n bits, lowest bit first, each row padded with zeros to a whole byte. Row j, of the nodes
   whose outcomes flip node j, has bit i where i is not j and j lies in the set of i (0022), or has an odd number of neighbours in it (0023).
   The count of bytes written, or a refusal. */
uint64_t bolz_add_signals(uint64_t role, const uint8_t *file, size_t file_len, uint8_t *out, size_t out_len);

/* Edits one node's set: a job file followed by a flow file in, and an entry as in 0012: node, count, members; out the flow file with that entry for the
   node's own, or put in where it had none. In stored signal lists the node's bits follow the new set and all others keep, so lists that were those of
   the flow still are. A count of 0 leaves an entry with no member. The new flow is not verified. The count of bytes written, or a refusal. */
uint64_t bolz_edit_set(uint64_t role, const uint8_t *file, size_t file_len, const uint8_t *entry, size_t entry_len, uint8_t *out, size_t out_len);

/* The job writer: the lists of an editor in, the job file out, each list in it ascending; the same job in another order gives the same bytes.
   n is the number of nodes. Edges are pairs of nodes, either end first, in any order; inputs and outputs are nodes in any order; measurements are a byte for
   each node, 0 at outputs, as in the file. The count of bytes written, or a refusal. */
uint64_t bolz_write_job(uint64_t role, size_t n, size_t mode, const uint8_t *edges, size_t edges_len, const uint8_t *inputs, size_t inputs_len,
                        const uint8_t *outputs, size_t outputs_len, const uint8_t *measurements, size_t measurements_len,
                        uint8_t *out, size_t out_len);

/* The same with an angle for each node, BOLZ_ANGLE_BYTES each, which go into the file bit for bit as record 0024; in mode 2 only, and for the owner
   only. */
uint64_t bolz_write_job_angles(uint64_t role, size_t n, size_t mode, const uint8_t *edges, size_t edges_len, const uint8_t *inputs, size_t inputs_len,
                               const uint8_t *outputs, size_t outputs_len, const uint8_t *measurements, size_t measurements_len,
                               const uint8_t *angles, size_t angles_len, uint8_t *out, size_t out_len);

/* Reads the angles out, for the owner only: a job file in, its record 0024, head and all, out; NO_RECORD (1) where it has none. The count of bytes
   written, or a refusal. */
uint64_t bolz_read_angles(uint64_t role, const uint8_t *file, size_t file_len, uint8_t *out, size_t out_len);

/* The solver: matrix of rows times 16 bytes, cols coefficients, which may be none, and then `sides` right sides in each row; it is eliminated in place.
   1: right side `side` has a solution, which is in `bits`; 0: it has none, and `bits` are as they were; or a refusal. */
uint64_t bolz_solve(uint8_t *matrix, size_t matrix_len, uint8_t *bits, size_t bits_len, size_t rows, size_t cols, size_t sides, size_t side);

#ifdef __cplusplus
}
#endif
#endif
