       AB
