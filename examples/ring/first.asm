; The processor of a ring that the host is wired to: it sends its argument on by link 1, takes the sum
; that comes back by link 3, and sends it to the host by link 0.
.module first
.export main

main:   ldlp 0          ; C: the address of local 0, the argument
        mint
        ldnlp 1         ; B: the output channel of link 1
        ldc 4           ; A: four bytes
        out

        ldlp 1          ; the sum goes to local 1
        mint
        ldnlp 7         ; the input channel of link 3
        ldc 4
        in

        ldlp 1
        mint            ; the output channel of link 0
        ldc 4
        out
        stopp
