; Any other processor of the ring: it takes a word by link 3, adds its argument, and sends the sum on
; by link 1.
.module pass
.export main

main:   ldlp 1          ; C: the address of local 1
        mint
        ldnlp 7         ; B: the input channel of link 3
        ldc 4           ; A: four bytes
        in

        ldl 1
        ldl 0           ; the argument
        sum
        stl 1

        ldlp 1
        mint
        ldnlp 1         ; the output channel of link 1
        ldc 4
        out
        stopp
