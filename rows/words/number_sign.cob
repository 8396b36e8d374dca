       A # B
