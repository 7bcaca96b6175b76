import tarczolin

program = tarczolin.Program.read('examples/queue-broken.asm')
print(program.count())
print(program.violation(), program.violation().registers())
print([outcome.memory for outcome in program.outcomes() if outcome.fails][0])
print(program.force(['consumer']).winner, bool(program.judge(program.graph('00000102020201'))))
try:
    tarczolin.Program(b'01\n110400\n')
except tarczolin.Refused as refused: print(refused.number, refused.place, refused.line)
