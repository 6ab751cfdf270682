; fargreet: greet in a segment of code of its own. nasm -f obj -o fargreet.obj fargreet.asm
    import DosWrite DOSCALLS 138
    extern DosWrite, text

    segment greet_code class=CODE public use16
global far_greet
far_greet:
    push 1                      ; the standard output
    push ds                     ; the text
    push text
    push 9                      ; its length
    push ds                     ; where the count of bytes written goes
    push count
    call far DosWrite
    retf

    segment data class=DATA public use16
count: dw 0

    group DGROUP data
