/*
 * frame_code_text of the header as a function of the shared library, for callers that cannot read a header. The header's
 * own is static, so it goes by another name here.
 */
#define frame_code_text header_code_text
#include "frame.h"
#undef frame_code_text

const char *frame_code_text(uint32_t code);

const char *frame_code_text(uint32_t code)
{
    return header_code_text(code);
}
