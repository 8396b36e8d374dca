           DISPLAY "AB
           STOP RUN.
