/* The host in a program of yours: a call over files in memory.
 *
 * The library is liblio_c.a, which `tools/bindings` makes in bindings/out; it is linked with the kit's c/liblibc_c.a. What a call promises is the
 * contract of `lio_host` in crates/lio_c/src/lib.rt. It holds where the caller keeps what stands at the function.
 */
#ifndef LIO_H
#define LIO_H

#include <stddef.h>
#include <stdint.h>

#ifdef __cplusplus
extern "C" {
#endif

/* How a call ended. Up to LIO_CLASH these are the exit statuses of the program; those for a file that can't be read or written, and for an
 * output that can't, never come, since files and output lie in memory. */
enum lio_status {
    LIO_DONE = 0,
    LIO_BAD_WORDS = 1,  /* the words give no command, or ask for workers, or the observer's label is none */
    LIO_MISSING = 2,    /* a file isn't among the files */
    LIO_BAD_POLICY = 4,
    LIO_BAD_SCRIPT = 5,
    LIO_BAD_START = 6,
    LIO_NO_MEMORY = 9,  /* memory was refused; the reply may be missing then */
    LIO_NOT_A_RUN = 10, /* the history that is taken again isn't that of a run */
    LIO_CLASH = 11,     /* a file that is written is one that is read, or one that is written before */

    /* no call was made */
    LIO_WORDS_BROKEN = 20,  /* the words are netstrings up to the byte at `place` alone */
    LIO_WORD_NOT_TEXT = 21, /* the word with the number `place`, from 0, isn't UTF-8 */
    LIO_FILES_BROKEN = 22,  /* the files are netstrings up to the byte at `place` alone */
    LIO_FILE_ALONE = 23,    /* the netstring with the number `place`, from 0, is a name without bytes behind it */
    LIO_FILE_TWICE = 24     /* the netstring with the number `place`, from 0, is a name that stands before it too */
};

/* What a caller is told. */
struct lio_told {
    uint32_t status; /* an `enum lio_status` */
    size_t place;    /* where the bytes are wrong, where no call was made; else 0 */
    size_t needed;   /* how many bytes the reply has; 0 where there is none */
};

/* Does what the words ask for, as `lio_host WORDS` does in a folder that has the files. `--workers` is LIO_BAD_WORDS here: the tasks take
 * turns in rounds, or as a history tells (`--check`).
 *
 * `words` are netstrings (`11:policy.json,`), one for each word. `files` are netstrings, a name and then the bytes of the file with that
 * name, for each file. Into `out` go netstrings: what the program says, what it prints on standard error, and then a name and bytes for
 * each file that it writes, in their order: the channels', the history's, the view's.
 *
 * Where the reply has more bytes than `out`, that is left as it is, `told->needed` says how many bytes it takes, and a call with so many
 * gives the reply: by the same words and files it is the same. Beyond the reply `out` is left as it is. Nothing is kept from call to call.
 * Several threads may call at once, each with memory of its own.
 *
 * What a caller keeps:
 * - no pointer is null, also where its length is 0;
 * - `words` and `files` point to so many bytes that can be read, and nobody writes them during the call;
 * - `out` points to so many bytes that can be written, and `told` to a `struct lio_told`; nobody else reads or writes them during the
 *   call, and neither lies in the other, in `words` or in `files`;
 * - each length is below 2^63;
 * - the thread has a stack of some megabytes, as a main thread has.
 */
void lio_host(const unsigned char *words, size_t words_length, const unsigned char *files, size_t files_length, unsigned char *out,
              size_t out_length, struct lio_told *told);

#ifdef __cplusplus
}
#endif

#endif
