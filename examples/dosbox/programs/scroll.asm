; Text by DOS and the video BIOS: characters, scrolls, the cursor.
%include "program.inc"

start:  mode    3
        mov     ah, 1                   ; no cursor, since it blinks
        mov     cx, 2000h
        int     10h
line:   mov     ah, 9
        mov     dx, text
        int     21h
        inc     byte [text]
        rounds  40, line

text:   db      'A quick brown fox jumps over the lazy dog. 0123456789', 13, 10, '$'
