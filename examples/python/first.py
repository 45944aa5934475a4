import registry

report = registry.settle(open("examples/morning-batch.csv", "rb").read())
for row in report.log.refused():
    print(row.record, row.instruction.act.value, row.outcome.name)
