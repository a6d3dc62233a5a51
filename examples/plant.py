# A plant from its table to the page for the reviewer, cell by cell: for a notebook that knows `# %%` (VS Code, Spyder,
# jupytext), or as a script: `python3 examples/plant.py FOLDER`. It writes into that folder alone. It needs the desk and
# `pinch`. In a notebook each answer shows itself, as a table or a picture; a script prints it.

# %% The desk: as it is installed, or as it stands in this checkout. In a notebook write the folder here.
import sys
from pathlib import Path

HERE = Path(__file__).resolve().parent if '__file__' in globals() else Path.cwd() / 'examples'
sys.path.append(str(HERE.parent / 'desk' / 'src'))
import pinchdesk  # noqa: E402

FOLDER = Path(sys.argv[1]) if len(sys.argv) == 2 else None
if FOLDER is None or not FOLDER.is_dir():
    sys.exit('usage: python3 examples/plant.py FOLDER (one that is there, and that may be written into)')

# %% The table of the plant. What is rounded, or assumed because the table does not say it, stands in the notes.
plant = pinchdesk.read(HERE / 'table.xlsx', difference=10)
print(*plant.notes, sep='\n')
(FOLDER / 'case.csv').write_text(plant.text)

# %% The targets, and the heat flow of least cost with its prices.
assert plant.targets().hot_kw == 20 and plant.targets().pinches_c == (85,)
print(plant.targets(), plant.flow(), sep='\n')

# %% The curves.
(FOLDER / 'curves.svg').write_bytes(plant.curves().as_file('svg'))

# %% The least difference against heat: what a smaller one would save, before any exchanger is bought.
sweep = plant.sweep(0, 20, 2)
print(sweep)
(FOLDER / 'sweep.svg').write_bytes(sweep.figure().as_file('svg'))

# %% A network with few exchangers. Whoever made one: the audit says whether it holds, what it costs, and how far it is
# above the floor.
found, by_hand = plant.network(seconds=10), HERE / 'four-stream-network.txt'
(FOLDER / 'found.txt').write_text(found.text)
for network in (found, by_hand):
    audit = plant.audit(network)
    print(f'{audit.exchangers} exchangers', audit, sep='\n')
    assert audit.accepted and audit.excess_kw == 0

# %% Its exchangers with all temperatures, and its grid diagram.
print(plant.table(by_hand))
(FOLDER / 'grid.svg').write_bytes(plant.grid(by_hand).as_file('svg'))

# %% Exchangers against cost: what each exchanger less costs, and the paths that pay for it.
tradeoff = plant.tradeoff(found, seconds=3)
print(tradeoff)
(FOLDER / 'tradeoff.svg').write_bytes(tradeoff.figure().as_file('svg'))

# %% What if a stream were otherwise?
what_if = plant.what_if('scenario,source,field,value\n5 K hotter,H2,supply,+5 K\n10 K hotter,H2,supply,+10 K\n')
print(what_if)

# %% Does the network still hold there? All at once, by the processors here (or a cluster: `scheduler='tcp:..'`).
still = pinchdesk.many('audit', {name: (case, by_hand.read_text()) for name, case in what_if.cases.items()})
print(*((case.name, case.answer) for case in still.done), sep='\n')

# %% All of it on one page for the reviewer, which needs no other file.
(FOLDER / 'page.html').write_text(plant.page(found, by_hand), encoding='utf-8')
