"""Plain models of the rules, with which scripts of tests/ compare what the programs say."""
