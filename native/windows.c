/* The C functions that the program calls, for Windows on x86-64: heap, files, words of the command line, start and end. They call
   kernel32.dll and shell32.dll, and no C library that could change a byte. The contracts that they must keep are those of the kit's
   libc/specs/Heap.antt and Io.antt, libc/src/lib.rt and os/src/c.rt. */

#define WIN32_LEAN_AND_MEAN
#define UNICODE
#include <windows.h>
#include <shellapi.h>
#include <stdint.h>

/* Linux's numbers for faults, which the standard library reads. */
enum { NOT_FOUND = 2, OTHER = 5, DENIED = 13, EXISTS = 17, NO_SPACE = 28, CLOSED_PIPE = 32 };

static int fault;

int rattle_errno(void) {
    return fault;
}

void rattle_set_errno(int number) {
    fault = number;
}

/* Keeps what the last call of Windows said as one of Linux's numbers, and returns -1. */
static int failed(void) {
    switch (GetLastError()) {
    case ERROR_FILE_NOT_FOUND: case ERROR_PATH_NOT_FOUND: case ERROR_INVALID_NAME: case ERROR_INVALID_DRIVE: case ERROR_BAD_NETPATH:
        fault = NOT_FOUND;
        break;
    case ERROR_ACCESS_DENIED: case ERROR_SHARING_VIOLATION: case ERROR_LOCK_VIOLATION:
        fault = DENIED;
        break;
    case ERROR_FILE_EXISTS: case ERROR_ALREADY_EXISTS:
        fault = EXISTS;
        break;
    case ERROR_BROKEN_PIPE: case ERROR_NO_DATA: case ERROR_PIPE_NOT_CONNECTED:
        fault = CLOSED_PIPE;
        break;
    case ERROR_DISK_FULL: case ERROR_HANDLE_DISK_FULL:
        fault = NO_SPACE;
        break;
    default:
        fault = OTHER;
    }
    return -1;
}

/* The text of a fault. The program ngc prints none; one whose main returns an error does. */
int __xpg_strerror_r(int number, char *to, size_t room) {
    const char *text = number == NOT_FOUND ? "No such file or directory" : "Input/output error";
    while (room-- > 1 && *text) *to++ = *text++;
    *to = 0;
    return 0;
}

/* Heap. HeapAlloc aligns a block to 16 bytes. */

static HANDLE heap;

/* The kit's libc/src/types.rt: `Tried`. The program expects it in two registers, as on Linux. */
typedef struct {
    _Bool ok;
    void *p;
} Tried;
#define PAIR __attribute__((sysv_abi))

/* What a pointer points to where there is no memory. */
static char nothing;

static Tried tried(void *block) {
    return (Tried){block != 0, block ? block : &nothing};
}

PAIR Tried rattle_alloc(size_t size, size_t align) {
    return tried(HeapAlloc(heap, 0, size ? size : align));
}

/* What the block has is kept by HeapReAlloc. */
PAIR Tried rattle_realloc(void *block, size_t kept, size_t size, size_t align) {
    (void)kept;
    return tried(HeapReAlloc(heap, 0, block, size ? size : align));
}

void rattle_dealloc(void *block) {
    HeapFree(heap, 0, block);
}

/* Files. A number from 3 up is a handle: Windows uses 32 bits of it, and its handles are multiples of 4. */

static HANDLE handle_of(int number) {
    switch (number) {
    case 0: return GetStdHandle(STD_INPUT_HANDLE);
    case 1: return GetStdHandle(STD_OUTPUT_HANDLE);
    case 2: return GetStdHandle(STD_ERROR_HANDLE);
    default: return (HANDLE)(intptr_t)number;
    }
}

/* A name has at most 4,095 bytes of UTF-8, and so at most 4,095 units of UTF-16. */
#define NAME 4096

/* The name in UTF-16; 0 where it isn't UTF-8 or is too long. */
static int widen(const char *name, wchar_t *wide) {
    return MultiByteToWideChar(CP_UTF8, MB_ERR_INVALID_CHARS, name, -1, wide, NAME);
}

/* Linux's flags of open. */
enum { FOR_WRITING = 3, CREATE = 0100, ONLY_NEW = 0200 };

/* Opens a file for reading, or one for writing. A file for writing that is there keeps its bytes. */
int open(const char *name, int flags, ...) {
    wchar_t wide[NAME];
    const DWORD share = FILE_SHARE_READ | FILE_SHARE_WRITE | FILE_SHARE_DELETE;
    const DWORD access = flags & FOR_WRITING ? GENERIC_WRITE : GENERIC_READ;
    const DWORD which = !(flags & CREATE) ? OPEN_EXISTING : flags & ONLY_NEW ? CREATE_NEW : OPEN_ALWAYS;
    if (!widen(name, wide)) return failed();
    HANDLE file = CreateFileW(wide, access, share, 0, which, FILE_ATTRIBUTE_NORMAL, 0);
    return file == INVALID_HANDLE_VALUE ? failed() : (int)(intptr_t)file;
}

/* Gives a file another name, in place of a file of that name. */
int rename(const char *from, const char *to) {
    wchar_t old[NAME], new[NAME];
    if (!widen(from, old) || !widen(to, new)) return failed();
    return MoveFileExW(old, new, MOVEFILE_REPLACE_EXISTING) ? 0 : failed();
}

int unlink(const char *name) {
    wchar_t wide[NAME];
    if (!widen(name, wide)) return failed();
    return DeleteFileW(wide) ? 0 : failed();
}

int fsync(int number) {
    return FlushFileBuffers(handle_of(number)) ? 0 : failed();
}

/* The kit's libc/src/types.rt: `statx`, and Linux's kinds of files. */
typedef struct {
    uint32_t mask, block_size;
    uint64_t attributes;
    uint32_t links, user, group;
    uint16_t mode, spare;
    uint64_t number, size, blocks, attributes_mask, times[8];
    uint32_t device_of_special[2], device[2];
    uint64_t rest[14];
} Found;
enum { FOLDER = 0040000, SPECIAL = 0020000, REGULAR = 0100000 };

/* What a file is, and which: files with the same device and number are the same. Times aren't found. */
int statx(int folder, const char *name, int flags, unsigned mask, Found *found) {
    wchar_t wide[NAME];
    const DWORD share = FILE_SHARE_READ | FILE_SHARE_WRITE | FILE_SHARE_DELETE;
    BY_HANDLE_FILE_INFORMATION is;
    (void)folder, (void)flags, (void)mask;
    if (!widen(name, wide)) return failed();
    HANDLE file = CreateFileW(wide, 0, share, 0, OPEN_EXISTING, FILE_FLAG_BACKUP_SEMANTICS, 0);
    if (file == INVALID_HANDLE_VALUE) return failed();
    *found = (Found){0};
    if (GetFileType(file) != FILE_TYPE_DISK) {
        found->mode = SPECIAL;
    } else if (GetFileInformationByHandle(file, &is)) {
        found->mode = is.dwFileAttributes & FILE_ATTRIBUTE_DIRECTORY ? FOLDER : REGULAR;
        found->number = (uint64_t)is.nFileIndexHigh << 32 | is.nFileIndexLow;
        found->size = (uint64_t)is.nFileSizeHigh << 32 | is.nFileSizeLow;
        found->device[0] = is.dwVolumeSerialNumber;
    } else {
        failed();
        CloseHandle(file);
        return -1;
    }
    CloseHandle(file);
    return 0;
}

int close(int number) {
    return CloseHandle(handle_of(number)) ? 0 : failed();
}

/* At most this many bytes at a time, since a console refuses much more. */
#define PART 32768

int64_t read(int number, void *to, size_t room) {
    HANDLE file = handle_of(number);
    DWORD got, mode;
    if (!ReadFile(file, to, room < PART ? room : PART, &got, 0)) {
        /* The end of a pipe. */
        return GetLastError() == ERROR_BROKEN_PIPE ? 0 : failed();
    }
    /* Ctrl+Z at the beginning of a line ends what is typed. */
    return got && *(char *)to == 26 && GetConsoleMode(file, &mode) ? 0 : got;
}

int64_t write(int number, const void *from, size_t length) {
    DWORD done;
    return WriteFile(handle_of(number), from, length < PART ? length : PART, &done, 0) ? (int64_t)done : failed();
}

/* Words of the command line, as UTF-8. */

static int count;
static wchar_t **words;

/* Copies a word, and returns its length: -1 if there is no such word, -2 if it doesn't fit. A word that isn't UTF-16 becomes the
   byte 255, which isn't UTF-8. */
int64_t rattle_arg(size_t index, char *to, size_t room) {
    if (index >= (size_t)count) return -1;
    const wchar_t *word = words[index];
    if (!*word) return 0;
    if (!room) return -2;
    int fits = room < INT_MAX ? room : INT_MAX;
    int length = WideCharToMultiByte(CP_UTF8, WC_ERR_INVALID_CHARS, word, lstrlenW(word), to, fits, 0, 0);
    if (length) return length;
    if (GetLastError() == ERROR_INSUFFICIENT_BUFFER) return -2;
    *to = -1;
    return 1;
}

/* Start and end. */

/* Windows has no signal that a pipe was closed. */
int64_t __sysv_signal(int number, int64_t action) {
    (void)number, (void)action;
    return 0;
}

/* LLVM lets main begin with a call of it. */
void __main(void) {}

int main(void);

/* A console shows UTF-8 while the program runs. */
void start(void) {
    heap = GetProcessHeap();
    words = CommandLineToArgvW(GetCommandLineW(), &count);
    if (!words) count = 0;
    UINT page = GetConsoleOutputCP();
    if (page) SetConsoleOutputCP(CP_UTF8);
    int status = main();
    if (page) SetConsoleOutputCP(page);
    ExitProcess(status);
}
