/* The drawing half of the XGA coprocessor, for C and C++: every call works on a state image that the caller keeps.

   An image is XGA_IMAGE_BYTES bytes, and the memory as many bytes as the state was made for. Each is passed as a
   pointer, which is not NULL, and its length; the two lie apart. No call keeps a pointer or allocates.
   A call answers XGA_ACCEPTED or its refusal; docs/manual/refusals.md says what to do about each. A refused call on a
   state changes nothing; xga_fresh makes a state also where it refuses a size. The lowest refusal that applies is given,
   but every other call refuses an image that does not load at once, whatever else applies. */
#ifndef XGA_H
#define XGA_H

#include <stddef.h>
#include <stdint.h>

/* The bytes of a state image. */
#define XGA_IMAGE_BYTES 115

/* What a call answers; the refusals are named below without XGA_REFUSED_. */
enum xga_answer {
    XGA_ACCEPTED = 0,           /* not refused */
    XGA_REFUSED_PLACE = 1,      /* length not 1, 2 or 4, offset not a multiple of it, or offset above 7F hex */
    XGA_REFUSED_UNFINISHED = 2, /* a write while a drawing is unfinished */
    XGA_REFUSED_UNLISTED = 3,   /* a byte of no register */
    XGA_REFUSED_FUNCTION = 4,   /* a function that does not draw */
    XGA_REFUSED_FIELDS = 5,     /* at a start: a field of the pixel operations */
    XGA_REFUSED_MIXES = 6,      /* at a start: a mix above 15 hex */
    XGA_REFUSED_FORMATS = 7,    /* at a start: a used map's format, or two formats that do not go together */
    XGA_REFUSED_ENDS = 8,       /* at a start: a used map that ends beyond the memory */
    XGA_REFUSED_SIZE = 9,       /* a run's memory not of the state's size, or a fresh state's size outside the limit */
    XGA_REFUSED_IMAGE = 10      /* an image of another length, or one that does not load */
};

#ifdef __cplusplus
extern "C" {
#endif

/* The refusal in what xga_read or xga_run answered. */
static inline uint32_t xga_refusal(uint64_t answer) { return (uint32_t)(answer >> 32); }

/* The value in what xga_read answered, or the positions done in what xga_run did; 0 where it is refused. */
static inline uint32_t xga_value(uint64_t answer) { return (uint32_t)answer; }

/* Makes the image that of a fresh state, all registers zero, for a memory of size bytes.
   Refused: SIZE, size not 1 to 1048576, and the image is then that of a fresh state of size 1; otherwise
   IMAGE, image_length not XGA_IMAGE_BYTES. Bytes of another length stay as they are. */
uint32_t xga_fresh(uint8_t *image, size_t image_length, uint32_t size);

/* Writes the low length bytes of value to the registers at offset, low byte first; a write that covers 7F hex, or 2F
   for draw and step, starts a drawing.
   Refused, and the image stays: PLACE, UNFINISHED, UNLISTED, FUNCTION; at a start FIELDS, MIXES, FORMATS, ENDS; IMAGE. */
uint32_t xga_write(uint8_t *image, size_t image_length, uint32_t offset, uint32_t length, uint32_t value);

/* Reads length bytes of the registers at offset: xga_refusal and xga_value of the answer, its high and low 32 bits.
   Refused, with value 0: PLACE, UNLISTED, IMAGE. */
uint64_t xga_read(const uint8_t *image, size_t image_length, uint32_t offset, uint32_t length);

/* Draws at most allowance positions of the drawing in hand: xga_refusal of the answer, and as its xga_value the positions
   done; with no drawing in hand, 0.
   Refused, with nothing done: SIZE, memory_length not the state's size; IMAGE. */
uint64_t xga_run(uint8_t *image, size_t image_length, uint8_t *memory, size_t memory_length, uint32_t allowance);

/* Asks whether the bytes, say from a disk, are an image that the other calls accept; it changes nothing.
   Refused: IMAGE. */
uint32_t xga_load(const uint8_t *image, size_t image_length);

#ifdef __cplusplus
}
#endif

#endif
