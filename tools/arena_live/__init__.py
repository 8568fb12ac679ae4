"""The live front: it stands between the players' sockets and the program, which has no network.

    main       the words, and a run from its first match to the last verdict
    match      a match: its frames by the clock, and what the clients get of each
    pipe       the program on its pipe: lines in, the text of a frame out
    roll       who has joined, and where a frame's text ends
    saved      the folder of a match: its recording and its output, and how a match is resumed from them
    sessions   clients: their tokens, ports and budgets, and the packets of the open frame
    udp, web   the two transports; page/ is what a browser gets, and `guard` is before each connection of it
    bots       players that the front brings itself
    events     joins, leaves, items, hits and scores, from the lines of a frame
    verdict    whether a saved match is right
    metrics    what /metrics shows
    faults     exceptions that nobody awaits

docs/LIVE.md has the messages between a client and the front, and why each part is as it is.
"""
