; greet: writes the text of main. nasm -f obj -o greet.obj greet.asm
    import DosWrite DOSCALLS 138
    extern DosWrite, text

    segment code class=CODE public use16
global greet
greet:
    push 1                      ; the standard output
    push ds                     ; the text
    push text
    push 10                     ; its length
    push ds                     ; where the count of bytes written goes
    push count
    call far DosWrite
    ret

    segment data class=DATA public use16
count: dw 0

    group DGROUP data
