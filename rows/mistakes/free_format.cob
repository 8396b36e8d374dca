identification division.
program-id. trial.
procedure division.
    display "HELLO".
    stop run.
