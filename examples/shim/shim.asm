; shim: answers for DOSCALLS what start-up code asks and what is a constant here, or nothing. The ordinals are those of DOSCALLS. Arguments are
; pushed from left to right, and the call takes them away; all registers stay but AX, which has the error. Each call begins at a multiple of 64.

;@ module SHIM library
;@ export DOSEXITLIST 1:0040 ordinal=7
;@ export DOSSETSIGHANDLER 1:0080 ordinal=14
;@ export DOSGETDATETIME 1:00C0 ordinal=33
;@ export DOSGETMACHINEMODE 1:0100 ordinal=49
;@ export DOSDEVCONFIG 1:0140 ordinal=52
;@ export DOSQHANDTYPE 1:0180 ordinal=77
;@ export DOSSETVEC 1:01C0 ordinal=89
;@ export DOSGETENV 1:0200 ordinal=91
;@ export DOSGETVERSION 1:0280 ordinal=92
;@ export DOSERROR 1:02C0 ordinal=120
; what a program asks for by its offset alone: by how much an index of a huge selector is shifted, and how far apart these are
;@ export DOSHUGESHIFT 1:0003 ordinal=135
;@ export DOSHUGEINCR 1:0008 ordinal=136
cpu 286
bits 16

;@ segment 1 code
section s1 vstart=0
        times 64 int3                   ; nothing is called here

; DosExitList(order, routine): the routine is never called, since DosExit ends the process at once
exitlist:
        push bp
        mov bp, sp
        mov al, [bp+10]                 ; 1 adds a routine, 2 takes one away, 3 goes on with the next
        dec al
        cmp al, 3
        mov ax, 0
        jb .done
        inc ax                          ; ERROR_INVALID_FUNCTION
.done:  pop bp
        retf 6
        align 64, int3

; DosSetSigHandler(handler, previous, previous action, action, signal): there was none before, and none is called
setsighandler:
        push bp
        mov bp, sp
        push es
        push bx
        les bx, [bp+14]
        mov ax, es
        or ax, bx
        jz .action
        mov word [es:bx], 0
        mov word [es:bx+2], 0
.action:
        les bx, [bp+10]
        mov ax, es
        or ax, bx
        jz .done
        mov word [es:bx], 0
.done:  xor ax, ax
        pop bx
        pop es
        pop bp
        retf 16
        align 64, int3

; DosGetDateTime(date): the one that stands in segment 2
getdatetime:
        push bp
        mov bp, sp
        push ds
        push es
        push si
        push di
        push cx
        mov ax, 0FFFFh                  ;@+1 selector 2
        mov ds, ax
        xor si, si
        les di, [bp+6]
        mov cx, 11
        cld
        rep movsb
        xor ax, ax
        pop cx
        pop di
        pop si
        pop es
        pop ds
        pop bp
        retf 4
        align 64, int3

; DosGetMachineMode(mode): 1, protected
getmachinemode:
        push bp
        mov bp, sp
        push es
        push bx
        les bx, [bp+6]
        mov byte [es:bx], 1
        xor ax, ax
        pop bx
        pop es
        pop bp
        retf 4
        align 64, int3

; DosDevConfig(what there is, item, 0): there is none of it
devconfig:
        push bp
        mov bp, sp
        mov ax, 87                      ; ERROR_INVALID_PARAMETER
        cmp word [bp+8], 6
        ja .done
        push es
        push bx
        les bx, [bp+10]
        mov byte [es:bx], 0
        xor ax, ax
        pop bx
        pop es
.done:  pop bp
        retf 8
        align 64, int3

; DosQHandType(handle, type, attribute): the three handles are devices, the first one the standard input, the others the standard output
qhandtype:
        push bp
        mov bp, sp
        mov ax, 6                       ; ERROR_INVALID_HANDLE
        cmp word [bp+14], 2
        ja .done
        push es
        push bx
        les bx, [bp+10]
        mov word [es:bx], 1
        les bx, [bp+6]
        mov word [es:bx], 8001h
        cmp word [bp+14], 0
        je .set
        mov word [es:bx], 8002h
.set:   xor ax, ax
        pop bx
        pop es
.done:  pop bp
        retf 10
        align 64, int3

; DosSetVec(exception, routine, previous): there was none before, and none is called
setvec:
        push bp
        mov bp, sp
        push es
        push bx
        les bx, [bp+6]
        mov word [es:bx], 0
        mov word [es:bx+2], 0
        xor ax, ax
        pop bx
        pop es
        pop bp
        retf 10
        align 64, int3

; DosGetEnv(selector, offset): the environment has the selector after the program's last segment, and the command line stands after
; its empty string. It is found at the first call, as the last of the selectors that follow one another; so that call has to come before the
; program makes segments.
getenv:
        push bp
        mov bp, sp
        push ds
        push es
        push bx
        push cx
        mov ax, 0FFFFh                  ;@+1 selector 3
        mov ds, ax
        mov ax, [0000h]
        or ax, ax
        jnz .found
        mov ax, 0007h
.next:  add ax, 8
        lar cx, ax
        jz .next
        sub ax, 8
        mov [0000h], ax
.found: les bx, [bp+10]
        mov [es:bx], ax
        mov ds, ax
        xor bx, bx
.string:
        cmp byte [bx], 0
        je .empty
.byte:  inc bx
        cmp byte [bx-1], 0
        jne .byte
        jmp short .string
.empty: inc bx
        mov ax, bx
        les bx, [bp+6]
        mov [es:bx], ax
        xor ax, ax
        pop cx
        pop bx
        pop es
        pop ds
        pop bp
        retf 8
        align 64, int3

; DosGetVersion(version): 10.30, as OS/2 1.3 has it
getversion:
        push bp
        mov bp, sp
        push es
        push bx
        les bx, [bp+6]
        mov word [es:bx], 0A1Eh
        xor ax, ax
        pop bx
        pop es
        pop bp
        retf 4
        align 64, int3

; DosError(flags): there are no pop-ups to be switched
error:
        xor ax, ax
        retf 2

; Saturday, 1 July 1989, 12:00: hours, minutes, seconds, hundredths, day, month, year, minutes from Greenwich (unknown), day of the week
;@ segment 2 data readonly
section s2 vstart=0
        db 12, 0, 0, 0, 1, 7
        dw 1989, 0FFFFh
        db 6

; the selector of the environment, once it is found
;@ segment 3 data size=2
section s3 vstart=0
