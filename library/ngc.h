/* The proved checker as a library, for x86-64 Linux: libngc.so or libngc.a. See docs/LIBRARY.md.

   Each call writes the output of a command of `ngc` to the front of `output`, and the lines of its standard error to the front of
   `errors`, as far as there is space, and their whole lengths to `lengths`. It returns the command's exit status: 0 for done, 1 where
   memory ends or a file is longer than 20,000,000 bytes, 2 for a command line that is refused, 3 for a file or a program that is
   refused, 4 for a certificate that is refused or isn't made. Where a length is greater than the space, call again with more. Of standard error the first 65,536 bytes are
   kept.

   A text is a pointer, which isn't null, and a length in bytes. A byte order mark at its beginning is left out, and so are carriage
   returns before line feeds in a certificate or events. What is written must not overlap what is read. A call keeps nothing. It
   allocates by malloc, realloc and free. */
#ifndef NGC_H
#define NGC_H

#include <stdbool.h>
#include <stddef.h>
#include <stdint.h>

#ifdef __cplusplus
extern "C" {
#endif

typedef struct {
    size_t output;
    size_t errors;
} ngc_lengths;

#define NGC_TEXT(name) const uint8_t *name, size_t name##_length
#define NGC_WRITTEN uint8_t *output, size_t output_length, uint8_t *errors, size_t errors_length, ngc_lengths *lengths

/* Any command with any of its options: the words of its command line are the lines of `words`, as "report\n--margin=2". In them the
   four files are named program, machine, tools and certificate, as in "--machine=machine"; a file that no word names may be empty.
   The other calls are single commands with few options. */
uint32_t ngc_command(NGC_TEXT(words), NGC_TEXT(program), NGC_TEXT(machine), NGC_TEXT(tools), NGC_TEXT(certificate), NGC_WRITTEN);
/* The words of a call, which are the lines of `words`, with those that the job file `job` of this name adds, for ngc_command: a word on
   each line. The words name it, as "--job=plate/ngc.toml", or their program is in its folder. The errors are the line that says what was
   added. The words name the machine file and the tool table by their paths: read these files, and change each word to the name of the
   call, as "--machine=machine". Any other job file is empty. Refused words and a refused job file have the program's text and its status;
   a word with a line feed or a carriage return has 2. */
uint32_t ngc_job(NGC_TEXT(words), NGC_TEXT(name), NGC_TEXT(job), NGC_WRITTEN);
/* The report of a part program; with `all` every command that nothing clears, with `json` as a JSON document. */
uint32_t ngc_report(NGC_TEXT(program), NGC_TEXT(machine), NGC_TEXT(tools), bool all, bool json, NGC_WRITTEN);
/* A picture as SVG, at a setting of block delete: from the front where `view` is 1, from the side where it is 2, else from the top. */
uint32_t ngc_draw(NGC_TEXT(program), NGC_TEXT(machine), NGC_TEXT(tools), uint32_t view, bool block_delete, NGC_WRITTEN);
/* The commands that a part program means, at a setting of block delete. */
uint32_t ngc_list(NGC_TEXT(program), NGC_TEXT(machine), NGC_TEXT(tools), bool block_delete, NGC_WRITTEN);
/* A certificate, in version 2 of its text where `second` is set. */
uint32_t ngc_certify(NGC_TEXT(program), NGC_TEXT(machine), NGC_TEXT(tools), bool second, NGC_WRITTEN);
/* `accepted`, where the certificate shows that no path of the program leaves the travel or meets a fixture. */
uint32_t ngc_check(NGC_TEXT(program), NGC_TEXT(machine), NGC_TEXT(tools), NGC_TEXT(certificate), NGC_WRITTEN);
/* The pulses of a run to the end of what is accepted, as a value change dump. */
uint32_t ngc_pulses(NGC_TEXT(program), NGC_TEXT(machine), NGC_TEXT(tools), NGC_TEXT(certificate), bool block_delete, NGC_WRITTEN);
/* What a machine file and a tool table say, in millimetres, with warnings. */
uint32_t ngc_show(NGC_TEXT(machine), NGC_TEXT(tools), NGC_WRITTEN);
/* A program for another control, printed in ngc's own language as it is executed, at a setting of block delete: `control` is 0 for
   LinuxCNC, 1 for GRBL, 2 for Mach3, 3 for Fanuc. The errors are the notes on it. */
uint32_t ngc_adapt(NGC_TEXT(program), NGC_TEXT(machine), NGC_TEXT(tools), uint32_t control, bool block_delete, NGC_WRITTEN);
/* A machine file from a dump of GRBL's settings. */
uint32_t ngc_machine(NGC_TEXT(settings), NGC_WRITTEN);
/* What a fault's number means. */
uint32_t ngc_explain(uint16_t number, NGC_WRITTEN);

#undef NGC_TEXT
#undef NGC_WRITTEN

#ifdef __cplusplus
}
#endif

#endif
