"""The front door: what stands between a person and the proved programs.

Nothing in this package plans, moves or measures what is promised: that is the programs' work, which are proved. It
reads and writes fleet files, finds and runs the programs, puts their answers into words and tables, and draws.

    commands   what each command does
    numbers    binary32 numbers, as words of 32 bits and as text
    fleet      fleet files
    text       the text form of a fleet, which a person can write
    programs   the proved programs: built where need be, and run
    refusals   a refusal's number and place, in words
    tables     tables of numbers
    scene      what there is to draw
    drawing    a fleet, or a flight, as an SVG
    svg        the elements of one
    files      what is read and written, and what goes wrong with it
"""
