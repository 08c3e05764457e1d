/* Opens a transfer on line 0 and prints the answer. */
#include "ngachodui.h"

#include <stdio.h>

static ngachodui_gateway gateway;

int main(void)
{
    const uint8_t line = 0, enq = 0x05;
    if (!ngachodui_on_fresh(&gateway))
        return 1; /* the library has another layout than the header */
    ngachodui_answered answer = ngachodui_on_byte(&gateway, line, enq);
    printf("answer %u, reply %02X\n", answer.number, answer.reply);
    return answer.number == NGACHODUI_OPENED ? 0 : 1;
}
