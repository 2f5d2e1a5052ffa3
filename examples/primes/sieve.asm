; One processor of a pipeline that sieves. It takes numbers by link 3 and gives numbers by link 1; 0 is
; the last. The first numbers, as many as its argument says, pass. The next is its prime: it passes too,
; and of those that follow all that the prime doesn't divide.
.module sieve
.export main

main:   ldl 0           ; how many numbers still pass
        cj own
        ldlp 2          ; C: the address of local 2, the number
        mint
        ldnlp 7         ; B: the input channel of link 3
        ldc 4           ; A: four bytes
        in
        ldlp 2
        mint
        ldnlp 1         ; the output channel of link 1
        ldc 4
        out
        ldl 0
        adc -1
        stl 0
        j main

own:    ldlp 2
        mint
        ldnlp 7
        ldc 4
        in
        ldl 2
        stl 1           ; its prime
        j give

next:   ldlp 2
        mint
        ldnlp 7
        ldc 4
        in
        ldl 2
        cj last
        ldl 2
        ldl 1
        rem
        cj next         ; its prime divides the number
give:   ldlp 2
        mint
        ldnlp 1
        ldc 4
        out
        j next

last:   ldlp 2
        mint
        ldnlp 1
        ldc 4
        out
        stopp
