/* An image by the path of its file: the file is mapped, the proved calls say what the array is and where it stands, and its bytes are
 * read from there where they are stored as they are asked for; else the proved delivery makes them. */
#define _POSIX_C_SOURCE 200809L
#include <errno.h>
#include <fcntl.h>
#include <sys/mman.h>
#include <sys/stat.h>
#include <unistd.h>
#include "edf.h"

/* Maps the file that is open; 0 and errno where it is no regular file, or cannot be mapped. A file of no bytes needs no mapping. */
static int map(edf_image *image) {
    static const uint8_t none[1];
    struct stat about;
    if (fstat(image->descriptor, &about) != 0) return 0;
    if (!S_ISREG(about.st_mode)) return errno = S_ISDIR(about.st_mode) ? EISDIR : ESPIPE, 0;
    size_t length = (size_t)about.st_size;
    void *bytes = length == 0 ? (void *)none : mmap(NULL, length, PROT_READ, MAP_PRIVATE, image->descriptor, 0);
    if (bytes == MAP_FAILED) return 0;
    image->file = bytes;
    image->file_length = length;
    return 1;
}

uint8_t edf_image_open(const char *path, size_t block, uint8_t order, edf_image *image, size_t *position) {
    edf_image opened = {.block = block, .order = order, .descriptor = open(path, O_RDONLY | O_CLOEXEC)};
    if (opened.descriptor < 0) return EDF_SYSTEM_ERROR;
    uint8_t code = EDF_SYSTEM_ERROR;
    if (map(&opened))
        code = edf_stored_array(opened.file, opened.file_length, block, order, &opened.description, &opened.start, &opened.length,
                                &opened.delivered, position);
    if (code == EDF_OK)
        *image = opened;
    else
        edf_image_close(&opened);
    return code;
}

/* Reads `length` bytes of a file from an offset on. */
static uint8_t read_bytes(int descriptor, size_t offset, uint8_t *out, size_t length) {
    for (size_t done = 0; done < length;) {
        ssize_t count = pread(descriptor, out + done, length - done, (off_t)(offset + done));
        if (count == 0) errno = EIO;
        if (count == 0 || (count < 0 && errno != EINTR)) return EDF_SYSTEM_ERROR;
        if (count > 0) done += (size_t)count;
    }
    return EDF_OK;
}

uint8_t edf_image_read(const edf_image *image, uint8_t *out, size_t out_length, size_t *position) {
    size_t length;
    if (image->delivered && image->length <= out_length) return read_bytes(image->descriptor, image->start, out, image->length);
    return edf_read_array(image->file, image->file_length, image->block, image->order, out, out_length, &length, position);
}

void edf_image_close(edf_image *image) {
    int error = errno;
    if (image->file_length > 0) munmap((void *)image->file, image->file_length);
    close(image->descriptor);
    *image = (edf_image){.descriptor = -1};
    errno = error;
}
