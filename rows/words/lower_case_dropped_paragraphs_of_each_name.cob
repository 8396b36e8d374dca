       identification division.
       program-id. p.
       installation. "
       date-written. #
           %
       date-compiled.
       security. ""
       procedure division.
           display "SHOWN".
           stop run.
