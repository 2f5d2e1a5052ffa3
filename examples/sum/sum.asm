; A sum over a channel: one process sends four words, the other adds them and sends the sum on link 0.
.module sum
.export main

; The process that adds. Local 1 is the channel, 2 the word that came, 3 the sum, 4 and 5 the loop's
; index and count. The workspace of the process that sends lies 20 words below.
main:   mint                    ; NotProcess.p: nobody waits at the channel
        stl   1
        ldc   0
        stl   3
        ldc   0
        stl   4
        ldc   4                 ; so many words come
        stl   5
        ldc   sender-here       ; the way to the sender's code from behind startp
        ldlp  -20               ; its workspace
        startp
here:
next:   ldlp  2                 ; C: where the word goes
        ldlp  1                 ; B: the channel
        ldc   4                 ; A: how many bytes
        in
        ldl   3
        ldl   2
        add
        stl   3
        ldlp  4
        ldc   all-next          ; the way back from behind lend
        lend
all:    ldlp  3                 ; C: the sum
        mint                    ; B: the output channel of link 0
        ldc   4
        out
        stopp

; The process that sends. Local 1 and 2 are the loop's index and count; the channel is local 1 of the
; other process, which is local 21 here.
sender: ldc   0
        stl   1
        ldc   4
        stl   2
send:   ldl   1
        mint
        ldnlp @words            ; the address of the words
        wsub                    ; C: that of the next
        ldlp  21                ; B: the channel
        ldc   4                 ; A: how many bytes
        out
        ldlp  1
        ldc   sent-send
        lend
sent:   stopp

.data
words:  .word 10
        .word 20
        .word #1E
        .word 40
