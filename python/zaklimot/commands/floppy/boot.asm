; The boot sector of a floppy, a stick or a hard disk that runs a script, and the interpreter behind it.
;
;     nasm -f bin boot.asm -o boot.bin
;
; Sector 0 is the boot sector. Sectors 1 to 6 are the interpreter, and behind it lies the table of steps: they are
; loaded together at 0000:8000. Sector 1023 is the mark, sectors 1024 to 1151 take the answers. `image.py` has the
; same layout, `table.py` the forms of the steps. It runs in real mode, on an 80386 or later.

        cpu 386
        bits 16

BOOT            equ 0x7c00
INTERPRETER     equ 0x8000              ; where sector 1 is loaded
INTERPRETER_SIZE equ 3072               ; bytes
TABLE_SEGMENT   equ (INTERPRETER + INTERPRETER_SIZE) / 16
HEADER_SIZE     equ 16                  ; bytes before the steps
FIRST_SCRIPT    equ 6                   ; in the header: where the first script stands in them; before it stands the reset
TABLE_LENGTH    equ 8                   ; in the header: bytes of the steps
TABLE_CHECK     equ 12                  ; in the header: their check
RESET_SEGMENT   equ TABLE_SEGMENT + HEADER_SIZE / 16
SCRATCH         equ 0x7000              ; a segment that services may write into
ANSWERS         equ 0x8000              ; a segment of answers
MARK_SECTOR     equ 1023
ANSWER_SECTOR   equ 1024
SECTOR_SIZE     equ 512
LOAD            equ 2                   ; functions of interrupt 13
STORE           equ 3
TRIES           equ 4                   ; a floppy's motor takes its time
MISCELLANEOUS_OUTPUT equ 0x3c2
SEQUENCER       equ 0x3c4
INPUT_STATUS    equ 0x3da
FIRST_SERIAL    equ 0x400               ; the BIOS data's port of the first serial adapter, 0 where there is none
UP              equ 0x48                ; the key's scan code
LOCKS           equ 0x417               ; the BIOS data's flags of the keyboard: bits 4 to 6 are its three locks
DISK_HANDLER    equ 4 * 0x13            ; the vector of interrupt 13
PARTITIONS      equ 440                 ; in sector 0: what a disk has there, written by image.py
MARK_BYTES      equ 0                   ; in the segment of services, once the script has ended: the mark,
READ_BACK       equ SECTOR_SIZE         ; a sector that was read back,
CHECKS          equ 2 * SECTOR_SIZE     ; and the checks of all pages
ROW_BYTES       equ 22                  ; answers of a row on the screen
PAGE_ROWS       equ 21
PAGE_BYTES      equ PAGE_ROWS * ROW_BYTES
ROW_OF_CHECKS   equ 0x8000              ; and the number of a page: its check
ROW_OF_ALL      equ 0xffff
POLYNOMIAL      equ 0x1021              ; of CRC-16, the high bit first, from 0 on

; How a run ends, in [ending].
WAIT_FOR_KEY    equ 0                   ; a machine: the picture stays until a key is pressed, and then a text is shown
LEAVE_EMULATOR  equ 1                   ; an emulator is told to end itself
STAND_STILL     equ 2                   ; the picture stays

; Where a service looks for a block or a table, in the flags of a call.
BLOCK_AT_DX     equ 1
BLOCK_AT_BP     equ 2
TABLE_AT_DX     equ 4

        org BOOT
        jmp short start
        nop
        db 'VGAFLOPY'                   ; by this name `read` knows an image
        dw SECTOR_SIZE                  ; the form of a floppy of 1.44 MB, which some machines ask for
        db 1
        dw 1
        db 2
        dw 224, 2880
        db 0xf0
        dw 9, 18, 2
        dd 0, 0
        db 0, 0, 0x29
        dd 0
        db 'VGA SCRIPT ', 'FAT12   '
sectors dw 0                            ; offset 62: how many are loaded, written by image.py
ending  db WAIT_FOR_KEY                 ; offset 64: how the run ends, written by image.py

start:  cli
        xor ax, ax
        mov ds, ax
        mov ss, ax
        mov sp, BOOT
        sti
        cld
        mov [drive], dl
        call ask_form
        mov si, 1                       ; the sector
        mov bp, INTERPRETER / 16        ; its segment
        mov di, [sectors]
.next:  mov es, bp
        xor bx, bx
        mov ax, si
        mov byte [command], LOAD
        call sector
        cmp byte [failed], 0
        jne unread
        add bp, SECTOR_SIZE / 16
        inc si
        dec di
        jnz .next
        jmp 0:interpreter

unread: mov si, .text
        call say
.stop:  hlt
        jmp .stop
.text   db 'vga-floppy: this disk can not be read.', 13, 10, 0

; A stick is a hard disk to most machines: its sectors are asked for by their numbers, or where the BIOS has no such
; functions by the form that it tells. A floppy has the form that stands here.
ask_form:
        test dl, 0x80
        jz .known
        mov ah, 0x41
        mov bx, 0x55aa
        int 0x13
        jc .form
        cmp bx, 0xaa55
        jne .form
        and cl, 1
        mov [by_number], cl
        jnz .known
.form:  mov dl, [drive]
        mov ah, 8
        xor di, di
        mov es, di
        int 0x13
        jc .known
        and cx, 0x3f
        jz .known
        mov [per_track], cx
        movzx dx, dh
        inc dx
        mov [heads], dx
.known: ret

; Loads or stores one sector, by [command]: its number in ax, its bytes at es:bx. [failed] is 1 where that fails.
sector: pusha
        mov bp, TRIES
        mov [number], ax
        mov [packet.offset], bx
        mov [packet.segment], es
.retry: mov ax, [number]
        mov dl, [drive]
        cmp byte [by_number], 0
        je .place
        mov ah, [command]
        add ah, 0x40
        mov al, 0
        mov si, packet
        jmp .call
.place: xor dx, dx
        div word [per_track]
        mov cl, dl
        inc cl                          ; sectors of a track count from 1
        xor dx, dx
        div word [heads]
        mov ch, al                      ; the track
        mov dh, dl                      ; the head
        mov dl, [drive]
        mov ah, [command]
        mov al, 1
.call:  push bp
        int 0x13
        pop bp
        jnc .good
        xor ah, ah
        mov dl, [drive]
        push bp
        int 0x13
        pop bp
        dec bp
        jnz .retry
        mov byte [failed], 1
.good:  popa
        ret

; Shows the text at si, up to a byte of 0.
say:    lodsb
        or al, al
        jz .end
        call show
        jmp say
.end:   ret

; Shows al as a character.
show:   pusha
        mov ah, 0x0e
        mov bx, 7
        int 0x10
        popa
        ret

drive   db 0
command db 0
failed  db 0
by_number db 0                          ; 1 where the BIOS takes a sector's number
packet  db 16, 0                        ; as these functions take it: one sector, where its bytes are, its number
        dw 1
.offset dw 0
.segment dw 0
number  dd 0, 0
per_track dw 18
heads   dw 2
        times PARTITIONS - ($ - $$) db 0
        times 510 - ($ - $$) db 0       ; a disk's signature and its table of partitions; of a floppy 0
        dw 0xaa55

; ------------------------------------------------------------------------------------------------- the interpreter
; fs:si is the next byte of the table, gs:di the next place of an answer; ds is 0, and no step changes these.

section .interpreter vstart=INTERPRETER follows=.text
interpreter:
        xor ax, ax
        mov ds, ax
        call open_serial
        call look_at_handler
        mov si, greeting
        call say
        mov si, no_serial
        cmp word [port], 0
        je .told
        mov si, by_serial
.told:  call say
        cmp byte [in_memory], 0
        je .kept
        mov si, forgets
        call say
.kept:  call send_greeting
        call send_table
        mov ax, TABLE_SEGMENT
        mov es, ax
        mov si, [es:FIRST_SCRIPT]
        mov ax, RESET_SEGMENT
        mov fs, ax
        mov ax, ANSWERS
        mov gs, ax
        xor di, di

step:   call normal
        call take_byte
        cmp al, LAST_STEP
        ja finish
        movzx bx, al
        add bx, bx
        inc dword [taken]
        test word [taken], 0x0fff
        jnz .quiet
        call send_progress
.quiet: jmp [steps + bx]

; The steps by their opcodes, as table.py has them.
steps   dw finish, write_port, write_port_word, read_port, read_port_word
        dw write_memory, write_memory_word, read_memory, read_memory_word
        dw call_service, pass_over, look_away, fill_memory, repeat_steps, end_of_block, begin_script, end_of_reset
LAST_STEP equ ($ - steps) / 2 - 1

; A BIOS answers interrupt 13 from its own memory, behind A0000. A handler before that is a program that was loaded,
; such as memdisk, and its disk may be in memory, too.
look_at_handler:
        movzx eax, word [DISK_HANDLER + 2]
        shl eax, 4
        movzx ebx, word [DISK_HANDLER]
        add eax, ebx
        cmp eax, 0xa0000
        setb [in_memory]
        ret

; Keeps si below 16, so that no step and no block goes past its segment.
normal: mov ax, si
        shr ax, 4
        mov bx, fs
        add ax, bx
        mov fs, ax
        and si, 15
        ret

take_byte:
        mov al, [fs:si]
        inc si
        ret
take_word:
        mov ax, [fs:si]
        add si, 2
        ret

keep_word:
        call keep_byte
        mov al, ah
; Keeps al as the next byte of the answers. Each sixteen go out by the serial port. The reset has no answers.
keep_byte:
        cmp byte [is_reset], 0
        jne .none
        mov [gs:di], al
        push ax
        xor ah, ah
        add [answer_sum], ax
        inc di
        test di, 15
        jnz .end
        mov ax, 16
        call send_answers
.end:   pop ax
.none:  ret

write_port:
        call take_word
        mov dx, ax
        call take_byte
        out dx, al
        jmp step
write_port_word:
        call take_word
        mov dx, ax
        call take_word
        out dx, ax
        jmp step
read_port:
        call take_word
        mov dx, ax
        in al, dx
        call keep_byte
        jmp step
read_port_word:
        call take_word
        mov dx, ax
        in ax, dx
        call keep_word
        jmp step

; The place in memory that a step names, as es:bx: its segment and its offset, which is below 16.
take_place:
        call take_word
        mov es, ax
        call take_word
        mov bx, ax
        ret

write_memory:
        call take_place
        call take_byte
        mov [es:bx], al
        jmp step
write_memory_word:
        call take_place
        call take_word
        mov [es:bx], ax
        jmp step
read_memory:
        call take_place
        mov al, [es:bx]
        call keep_byte
        jmp step
read_memory_word:
        call take_place
        mov ax, [es:bx]
        call keep_word
        jmp step

; So many steps that no machine can do: nothing.
pass_over:
        call take_word
        movzx eax, ax
        dec ax
        add [taken], eax
        jmp step

; Reads a port, a byte or a word, and keeps no answer: what it is depends on the time.
look_away:
        call take_word
        mov dx, ax
        call take_byte
        or al, al
        jz .byte
        in ax, dx
        jmp step
.byte:  in al, dx
        jmp step

; Writes a byte to 65,536 addresses from a segment's begin on.
fill_memory:
        call take_word
        mov es, ax
        call take_byte
        push di
        xor di, di
        mov cx, 0x8000
        rep stosb
        mov cx, 0x8000
        rep stosb
        pop di
        jmp step

repeat_steps:
        call take_word
        mov [rounds], ax
        mov [block_si], si
        mov [block_fs], fs
        jmp step
end_of_block:
        dec word [rounds]
        jz step
        mov si, [block_si]
        mov fs, [block_fs]
        jmp step

; Brings the adapter into the state in which a script begins: the last value of miscellaneous output, the length of
; the script's name, and the name. The steps of the reset stand once, before all scripts.
begin_script:
        call take_byte
        mov [last_output], al
        call take_byte
        xor ah, ah
        add si, ax
        mov [script_fs], fs
        mov [script_si], si
        mov ax, RESET_SEGMENT
        mov fs, ax
        xor si, si
        mov byte [is_reset], 1
        jmp step
end_of_reset:
        mov dx, MISCELLANEOUS_OUTPUT
        mov al, [last_output]
        out dx, al
        mov byte [is_reset], 0
        mov fs, [script_fs]
        mov si, [script_si]
        jmp step

; Calls interrupt 10: ax bx cx dx, flags, the length of the table that is answered, that of the block, the block.
call_service:
        mov bx, given
        mov cx, 4
.given: call take_word
        mov [bx], ax
        add bx, 2
        loop .given
        call take_byte
        mov [flags], al
        call take_word
        mov [table_size], ax
        call take_word
        push ax
        call normal
        pop ax
        mov bp, si                      ; here stands the block
        add ax, si
        mov [kept_si], ax
        mov [kept_di], di
        mov [kept_fs], fs
        mov dx, [given + 6]
        mov ax, SCRATCH
        test byte [flags], BLOCK_AT_DX | BLOCK_AT_BP
        jz .place
        mov ax, fs
.place: mov es, ax
        test byte [flags], BLOCK_AT_DX
        jz .table
        mov dx, bp
.table: test byte [flags], TABLE_AT_DX
        jz .call
        xor dx, dx
.call:  mov [handed_dx], dx
        xor di, di
        mov ax, [given]
        mov bx, [given + 2]
        mov cx, [given + 4]
        int 0x10
        cld
        push ax
        xor ax, ax
        mov ds, ax
        mov ax, ANSWERS
        mov gs, ax
        mov fs, [kept_fs]
        mov si, [kept_si]
        mov di, [kept_di]
        test byte [flags], BLOCK_AT_DX | TABLE_AT_DX
        jz .keep
        cmp dx, [handed_dx]             ; where the block stands is no answer
        jne .keep
        mov dx, [given + 6]
.keep:  pop ax
        call keep_word
        mov ax, bx
        call keep_word
        mov ax, cx
        call keep_word
        mov ax, dx
        call keep_word
        mov cx, [table_size]
        jcxz .end
        xor bx, bx
.copy:  push SCRATCH
        pop es
        mov al, [es:bx]
        inc bx
        call keep_byte
        loop .copy
.end:   jmp step

; ------------------------------------------------------------------------------------------------- the serial port
; Lines of text: a letter, a number of three bytes, bytes, and the sum of all these bytes, as hexadecimal digits.

; Finds the first serial port, and sets it to 115,200 bits a second, eight bits, no parity, one stop bit.
open_serial:
        mov dx, [FIRST_SERIAL]
        mov [port], dx
        or dx, dx
        jz .none
        add dx, 3                       ; line control: the divisor is at hand
        mov al, 0x80
        out dx, al
        sub dx, 3
        mov ax, 1                       ; the divisor
        out dx, al
        inc dx
        mov al, ah
        out dx, al
        add dx, 2
        mov al, 3                       ; line control: eight bits
        out dx, al
        sub dx, 2
        xor al, al                      ; no interrupts
        out dx, al
        inc dx
        out dx, al                      ; no queue
        add dx, 2
        mov al, 3                       ; modem control: ready
        out dx, al
.none:  ret

; Sends al. A port that takes nothing for 65,536 looks is given up, so that the run goes on without it.
send:   push dx
        push cx
        push ax
        mov dx, [port]
        or dx, dx
        jz .end
        add dx, 5
        mov ah, al
        xor cx, cx
.look:  in al, dx
        test al, 0x20
        jnz .empty
        loop .look
        mov word [port], 0
        jmp .end
.empty: sub dx, 5
        mov al, ah
        out dx, al
.end:   pop ax
        pop cx
        pop dx
        ret

; Sends al as two digits, and adds it to the line's sum.
send_digits:
        add [line_sum], al
        push ax
        shr al, 4
        call .digit
        pop ax
        push ax
        and al, 15
        call .digit
        pop ax
        ret
.digit: add al, '0'
        cmp al, '9'
        jbe send
        add al, 'A' - '0' - 10
        jmp send

; Sends a line: the letter in al, the number in [line_number], cx bytes at es:bx.
send_line:
        cmp word [port], 0
        je .end
        call send
        mov al, ' '
        call send
        mov byte [line_sum], 0
        mov al, [line_number + 2]
        call send_digits
        mov al, [line_number + 1]
        call send_digits
        mov al, [line_number]
        call send_digits
        mov al, ' '
        call send
        jcxz .sum
.bytes: mov al, [es:bx]
        inc bx
        call send_digits
        loop .bytes
        mov al, ' '
        call send
.sum:   mov al, [line_sum]
        call send_digits
        mov al, 13
        call send
        mov al, 10
        call send
.end:   ret

; Sends the text that a record begins with.
send_greeting:
        mov si, record
.next:  lodsb
        or al, al
        jz .end
        call send
        jmp .next
.end:   ret

; Sends the table with its header, sixteen bytes a line.
send_table:
        mov ax, TABLE_SEGMENT
        mov es, ax
        mov dword [line_number], 0
        mov edx, [es:TABLE_LENGTH]
        add edx, HEADER_SIZE
.next:  mov cx, 16
        cmp edx, 16
        jae .whole
        mov cx, dx
.whole: xor bx, bx
        mov al, 'T'
        call send_line
        mov ax, es
        inc ax
        mov es, ax
        add dword [line_number], 16
        sub edx, 16
        ja .next
        ret

; Sends the last ax bytes of the answers.
send_answers:
        push es
        push bx
        push cx
        mov cx, ax
        push gs
        pop es
        mov bx, di
        sub bx, cx
        movzx eax, bx
        mov [line_number], eax
        mov al, 'A'
        call send_line
        pop cx
        pop bx
        pop es
        ret

; Sends how many steps were begun.
send_progress:
        push bx
        mov eax, [taken]
        mov [line_number], eax
        xor cx, cx
        mov al, 'P'
        call send_line
        pop bx
        ret

; ---------------------------------------------------------------------------------------------------------- the end
finish: cmp byte [ending], LEAVE_EMULATOR
        jne .send
        mov ax, 3                       ; no picture is wanted, and not each one can be drawn by an emulator
        int 0x10
        xor ax, ax
        mov ds, ax
        mov ax, ANSWERS
        mov gs, ax
.send:  mov ax, di
        and ax, 15
        jz .whole
        call send_answers
.whole: mov [answer_length], di
        mov byte [command], STORE
        mov di, sector
        call each_sector
        mov byte [command], LOAD
        mov di, compare
        call each_sector
        call store_mark
        movzx eax, word [answer_length]
        mov [line_number], eax
        xor ax, ax
        mov es, ax
        mov bx, answer_sum
        mov cx, 2
        mov al, 'E'
        call send_line
        cmp byte [ending], LEAVE_EMULATOR
        je leave_emulator
        cmp byte [ending], STAND_STILL
        je stop
        call beep
        or byte [LOCKS], 0x70           ; the BIOS lights its three lamps when it is asked for a key
.typed: mov ah, 1                       ; keys that were pressed while the script ran do not count
        int 0x16
        jz .wait
        xor ah, ah
        int 0x16
        jmp .typed
.wait:  xor ah, ah
        int 0x16
        and byte [LOCKS], 0x8f
        mov ah, 1
        int 0x16
        call show_text
        call tell_end
        jmp show_pages

stop:   hlt
        jmp stop

; Calls di for each sector of the answers, as long as all is well: its number in ax, its bytes at es:bx.
each_sector:
        mov si, ANSWER_SECTOR
        xor bx, bx
.next:  cmp byte [failed], 0
        jne .end
        cmp bx, [answer_length]
        jae .end
        mov ax, ANSWERS
        mov es, ax
        mov ax, si
        call di
        inc si
        add bx, SECTOR_SIZE
        jnc .next
.end:   ret

; Reads a sector back, its number in ax. [failed] is 1 where it has not the bytes at es:bx.
compare:
        pusha
        push es
        push es
        mov si, bx
        mov bx, SCRATCH
        mov es, bx
        mov bx, READ_BACK
        call sector
        mov di, bx
        pop ds
        mov cx, SECTOR_SIZE / 2
        repe cmpsw
        mov cx, 0                       ; the flags stay
        mov ds, cx
        je .same
        mov byte [failed], 1
.same:  pop es
        popa
        ret

; Sounds the speaker for a third of a second. A read of its port takes a microsecond, so no interrupt is needed.
beep:   mov al, 0xb6                    ; timer 2: a square wave
        out 0x43, al
        mov ax, 1356                    ; of 880 a second
        out 0x42, al
        mov al, ah
        out 0x42, al
        in al, 0x61
        or al, 3
        out 0x61, al
        mov bx, 5
.next:  xor cx, cx
.wait:  in al, 0x61
        loop .wait
        dec bx
        jnz .next
        and al, 0xfc
        out 0x61, al
        ret

; Brings text back, whatever a script has left. A BIOS asks for input status at 3DA, so that the flip-flop is known, and
; writes the CRT controller at 3D4: they are there again first. Then what calls of function 12 may have turned off.
show_text:
        mov dx, MISCELLANEOUS_OUTPUT
        mov al, 0x67
        out dx, al
        mov dx, SEQUENCER
        mov ax, 0x0300                  ; the sequencer runs
        out dx, ax
        mov dx, INPUT_STATUS
        in al, dx
        mov bx, 0x31                    ; a mode set loads the DAC
        call turn_on
        mov bx, 0x32                    ; the adapter answers
        call turn_on
        mov bx, 0x36                    ; the screen is on
        call turn_on
        mov ax, 3
        int 0x10
        xor ax, ax
        mov ds, ax
        ret
turn_on:
        mov ax, 0x1200
        int 0x10
        ret

; The mark, last, says that the answers are whole: its name, their length and sum, and the check of the table.
store_mark:
        mov ax, TABLE_SEGMENT
        mov es, ax
        mov edx, [es:TABLE_CHECK]
        mov ax, SCRATCH
        mov es, ax
        xor di, di
        xor ax, ax
        mov cx, SECTOR_SIZE / 2
        rep stosw
        mov dword [es:MARK_BYTES], 'VGAF'
        mov dword [es:MARK_BYTES + 4], 'DONE'
        mov ax, [answer_length]
        mov [es:MARK_BYTES + 8], ax
        mov ax, [answer_sum]
        mov [es:MARK_BYTES + 10], ax
        mov [es:MARK_BYTES + 12], edx
        cmp byte [failed], 0            ; a disk that takes no answers takes no mark
        jne .end
        mov bx, MARK_BYTES
        mov ax, MARK_SECTOR
        mov byte [command], STORE
        call sector
        mov byte [command], LOAD        ; some emulators write their file when something is read
        call compare
.end:   ret

; ---------------------------------------------------------------------------------------------------------- the pages
; All answers on the screen, for photographs. Each number of two bytes is a word of five letters: a consonant for four
; bits, a vowel for two, and so on, from the high bits down. A row has its number, words of bytes, and the CRC-16 of all
; these. Rows of answers count from 0; row 8000 and a page's number has the CRC-16 of the page's answers; row FFFF has
; the length of all answers, their sum, and the check of the table. `rows.py` reads them.

; Says where the answers are.
tell_end:
        mov si, stored
        cmp byte [in_memory], 0
        jne .lost
        cmp byte [failed], 0
        je .told
        mov si, not_stored
        jmp .told
.lost:  mov si, forgets
.told:  call say
        cmp word [port], 0
        je .keys
        mov si, sent
        call say
.keys:  mov si, keys
        jmp say

; Shows page after page, the checks and then the answers, by keys: the one above goes back, each other one goes on.
show_pages:
        mov ax, [answer_length]
        add ax, PAGE_BYTES - 1
        mov dx, 0                       ; the flags stay
        adc dx, dx
        mov cx, PAGE_BYTES
        div cx
        or ax, ax
        jnz .some
        inc ax                          ; no answers have an empty page
.some:  mov [pages], ax
        mov word [page], 0
.page:  xor ah, ah
        int 0x16
        push ax
        mov ax, 3
        int 0x10
        pop ax
        cmp ah, UP
        jne .on
        sub word [page], 2              ; the number is already that of the page to come
        jns .on
        mov ax, [pages]
        add [page], ax
        inc word [page]
.on:    cmp word [page], 0
        jne .answers
        call show_checks
        jmp .next
.answers:
        call show_answers
.next:  mov si, keys
        call say
        inc word [page]
        mov ax, [page]
        cmp ax, [pages]
        jbe .page
        mov word [page], 0
        jmp .page

show_checks:
        mov si, of_checks
        call say
        mov ax, TABLE_SEGMENT
        mov es, ax
        mov eax, [es:TABLE_CHECK]
        mov [table_check], eax
        xor ax, ax
        mov es, ax
        mov bx, answer_length
        mov cx, 8                       ; behind the length stand the sum and the table's check
        mov dx, ROW_OF_ALL
        call show_row
        call check_pages
        mov ax, SCRATCH
        mov es, ax
        mov bx, CHECKS
        mov dx, ROW_OF_CHECKS + 1
        mov di, [pages]
        add di, di
.next:  mov cx, ROW_BYTES
        cmp cx, di
        jbe .row
        mov cx, di
.row:   jcxz .end
        call show_row
        add dx, ROW_BYTES / 2
        sub di, cx
        jmp .next
.end:   ret

; The checks of all pages, one after the other, the high byte first.
check_pages:
        mov cx, 1
        mov di, CHECKS
.next:  cmp cx, [pages]
        ja .end
        call check_page
        mov ax, SCRATCH
        mov es, ax
        mov ax, [check]
        xchg al, ah
        stosw
        inc cx
        jmp .next
.end:   ret

; The check of the answers of page cx, which count from 1, in [check].
check_page:
        mov ax, cx
        dec ax
        mov bx, PAGE_BYTES
        mul bx
        mov bx, ax
        mov ax, ANSWERS
        mov es, ax
        mov word [check], 0
        mov dx, PAGE_BYTES
.next:  cmp bx, [answer_length]
        jae .end
        mov al, [es:bx]
        call add_check
        inc bx
        dec dx
        jnz .next
.end:   ret

show_answers:
        mov si, of_page
        call say
        mov ax, [page]
        call show_decimal
        mov si, of_pages
        call say
        mov ax, [pages]
        call show_decimal
        call new_line
        mov ax, [page]
        dec ax
        mov bx, PAGE_ROWS
        mul bx
        mov dx, ax                      ; the row's number
        mov ax, ROW_BYTES
        push dx
        mul dx
        pop dx
        mov bx, ax                      ; its answers
        mov ax, ANSWERS
        mov es, ax
        mov si, PAGE_ROWS
.next:  mov cx, [answer_length]
        sub cx, bx
        jbe .check
        cmp cx, ROW_BYTES
        jbe .row
        mov cx, ROW_BYTES
.row:   call show_row
        inc dx
        dec si
        jnz .next
.check: mov cx, [page]
        call check_page
        mov ax, [check]
        xchg al, ah
        mov [page_check], ax
        xor ax, ax
        mov es, ax
        mov bx, page_check
        mov dx, ROW_OF_CHECKS
        add dx, [page]
        mov cx, 2
; Shows a row: its number is dx, and it has cx bytes at es:bx, which is behind them then.
show_row:
        push cx
        mov word [check], 0
        mov ax, dx
        call show_word
.next:  mov ah, [es:bx]
        inc bx
        mov al, 0                       ; behind the last byte of all answers
        dec cx
        jz .last
        mov al, [es:bx]
        inc bx
        dec cx
.last:  call show_next
        or cx, cx
        jnz .next
        mov ax, [check]
        call show_next
        pop cx
new_line:
        mov al, 13
        call show
        mov al, 10
        jmp show

; Shows ax as a word, behind a blank or at once, and adds its bytes to the check.
show_next:
        push ax
        mov al, ' '
        call show
        pop ax
show_word:
        push ax
        xchg al, ah
        call add_check
        mov al, ah
        call add_check
        pop ax
        push di
        call .consonant
        call .vowel
        call .consonant
        call .vowel
        call .consonant
        pop di
        ret
.consonant:
        rol ax, 4
        mov di, ax
        and di, 15
        add di, consonants
        jmp .letter
.vowel: rol ax, 2
        mov di, ax
        and di, 3
        add di, vowels
.letter:
        push ax
        mov al, [di]
        call show
        pop ax
        ret

show_decimal:
        mov cx, 10
        xor dx, dx
        div cx
        push dx
        or ax, ax
        jz .digit
        call show_decimal
.digit: pop ax
        add al, '0'
        jmp show

; Adds al to [check].
add_check:
        push cx
        xor [check + 1], al
        mov cx, 8
.bit:   shl word [check], 1
        jnc .next
        xor word [check], POLYNOMIAL
.next:  loop .bit
        pop cx
        ret

; qemu's device isa-debug-exit, and bochs' port of its own.
leave_emulator:
        mov dx, 0xf4
        xor al, al
        out dx, al
        mov dx, 0x8900
        mov si, shutdown
.next:  lodsb
        or al, al
        jz stop
        out dx, al
        jmp .next

shutdown db 'Shutdown', 0
record  db 13, 10, 'VGA-FLOPPY 1', 13, 10, 0
greeting db 'vga-floppy: the script has the screen now. Its answers go to this disk', 0
no_serial db '.', 13, 10, 0
by_serial db ',', 13, 10, 'and to the first serial port (115200 8N1).', 13, 10, 0
stored  db 'vga-floppy: done. The answers are on this disk.', 13, 10, 0
not_stored db 'vga-floppy: done, but this disk does not keep the answers.', 13, 10, 0
forgets db 'vga-floppy: a program in memory, such as memdisk, stands for this disk.', 13, 10
        db 'It forgets the answers. Start the machine from the disk itself.', 13, 10, 0
sent    db 'They went to the first serial port, too.', 13, 10, 0
of_checks db 'vga-floppy: the checks of all pages', 13, 10, 0
of_page db 'vga-floppy: page ', 0
of_pages db ' of ', 0
consonants db 'bdfghjklmnprstvz'
vowels  db 'aiou'
keys    db 'Press a key for the next page of the answers, or the key up to go back.', 0

        align 4, db 0
taken   dd 0                            ; steps that were begun
line_number dd 0
port    dw 0                            ; the serial port, 0 where there is none
answer_length dw 0                      ; these three are a row of the page of checks
answer_sum dw 0
table_check dd 0
pages   dw 0
page    dw 0                            ; which is to come
page_check dw 0
check   dw 0
given   times 4 dw 0                    ; the registers of a call
handed_dx dw 0
table_size dw 0
kept_si dw 0
kept_di dw 0
kept_fs dw 0
rounds  dw 0                            ; how often the block is taken still, this time among them
block_si dw 0
block_fs dw 0
script_si dw 0
script_fs dw 0
is_reset db 0                           ; 1 while the steps of the reset are taken
last_output db 0
flags   db 0
in_memory db 0                          ; 1 where a program in memory answers for the disk
line_sum db 0
        times INTERPRETER_SIZE - ($ - interpreter) db 0
