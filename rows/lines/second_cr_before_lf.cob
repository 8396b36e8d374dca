       A
