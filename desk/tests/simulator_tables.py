"""Tables as simulators, programs for pinch analysis, consultants and notes have them. The plant is the four-stream
problem of Linnhoff and others (published targets, from memory, 20 and 60 kW at 10 K) where nothing else is said."""
from __future__ import annotations

from plant_tables import PlantTable, Rows
from tabled import workbook

ARROWS = '''Stream;T (°C);CP (kW/K)
H1;170 → 60;3
H2;150 → 30;1.5
C1;20 → 135;2
C2;80 → 140;4
'''
RANGES = '''Stream\tTemperature range\tDuty
\t°C\tkW
Reactor effluent\t170 -> 60\t330
Overhead\t150 -> 30\t180
Feed\t20 -> 135\t230
Recycle\t80 -> 140\t240
'''
DASHES = '''Typ;Strom;Temperaturverlauf (°C);Wärmelast (kW)
warm;1;170–60;330
warm;2;150–30;180
kalt;3;20–135;230
kalt;4;80–140;240
'''
SIDES = '''LNG-100;;;;;;
Inlet Stream;Outlet Stream;Inlet T [C];Outlet T [C];Molar Flow [kgmole/h];Duty [kJ/h];Hot/Cold
101;102;170.0;60.0;1200;1.188e+06;Hot
103;104;150.0;30.0;800;6.48e+05;Hot
201;202;20.0;135.0;1000;-8.28e+05;Cold
203;204;80.0;140.0;1000;-8.64e+05;Cold
'''
PRO_II = '''STREAM,TEMP IN,TEMP OUT,DUTY
,DEG C,DEG C,MM*KJ/HR
S1,170,60,1.188
S2,150,30,0.648
S3,20,135,0.828
S4,80,140,0.864
'''
SEGMENTS: Rows = [['Stream', 'TS', 'TT', 'DH', 'HTC', 'DTmin Contr.'], [None, 'C', 'C', 'kW', 'kW/m2C', 'C'],
                  ['Feed', 20, 135, 230, 1, 5], [None, 20, 80, 120, None, None], [None, 80, 135, 110, None, None],
                  ['Effluent', 170, 60, 330, 1, 5], ['Overhead', 150, 30, 180, 1, 5], ['Recycle', 80, 140, 240, 1, 5]]
SHIFTED: Rows = [['Pinch Analysis Spreadsheet'], ['Global Minimum Temperature Difference', 10, '°C'], [],
                 ['Stream Name', 'Stream Type', 'Supply Temperature', 'Target Temperature', 'Heat Capacity Flowrate',
                  'Heat Flow', 'dT Min Contrib', 'Supply Shift', 'Target Shift'],
                 [None, None, '°C', '°C', 'kW/K', 'kW', '°C', '°C', '°C'],
                 ['H1', 'HOT', 170, 60, 3, 330, 5, 165, 55], ['H2', 'HOT', 150, 30, 1.5, 180, 5, 145, 25],
                 ['C1', 'COLD', 20, 135, 2, 230, 5, 25, 140], ['C2', 'COLD', 80, 140, 4, 240, 5, 85, 145]]
DAIRY = '''Pinch-Analyse Molkerei;;;;;
Prozess;Strom-Art;Vorlauftemperatur in °C;Rücklauftemperatur in °C;Wärmeleistung in kW;Bemerkung
Pasteur;abzukühlen;170,0;60,0;330,0;Produkt
Brüden;abzukühlen;150,0;30,0;180,0;
Rohmilch;aufzuheizen;20,0;135,0;230,0;
CIP;aufzuheizen;80,0;140,0;240,0;
'''
UNITE = '''Bilan thermique de l'unité;;;;;
Repère;Flux;T° départ (°C);T° arrivée (°C);Débit (t/h);Puissance (kW)
1;Effluent;170;60;12;3 300,0
2;Tête de colonne;150;30;8;1 800,0
3;Charge;20;135;10;2 300,0
4;Recyclage;80;140;10;2 400,0
'''
CALORIAS = '''Corriente;Temp. ent. (ºC);Temp. sal. (ºC);Calor (Mcal/h)
Caliente 1;170;60;283,75
Caliente 2;150;30;154,77
Fría 1;20;135;197,76
Fría 2;80;140;206,36
'''
PORTATA = '''Correnti calde;;;;
Sigla;Portata (kg/s);Cs (kJ/kg °C);T iniz. (°C);T fin. (°C)
H1;1,5;2;170;60
H2;1;1,5;150;30
Correnti fredde;;;;
Sigla;Portata (kg/s);Cs (kJ/kg °C);T iniz. (°C);T fin. (°C)
C1;1;2;20;135
C2;2;2;80;140
'''
MARKDOWN = '''| Stream | Ts (°C) | Tt (°C) | CP (kW/K) |
|--------|--------:|:-------:|----------:|
| H1 | 170 | 60 | 3 |
| H2 | 150 | 30 | 1.5 |
| C1 | 20 | 135 | 2 |
| C2 | 80 | 140 | 4 |
'''
HINT = '''Stream\tType\tT1 (ºC)\tT2 (ºC)\tmCp (kW/K)\tHeat (kW)\th (kW/m2 K)\tDTmin contrib.
Hot 1\tSensible\t170\t60\t3\t330\t0.5\t5
Hot 2\tSensible\t150\t30\t1.5\t180\t0.5\t5
Cold 1\tSensible\t20\t135\t2\t230\t0.5\t5
Cold 2\tSensible\t80\t140\t4\t240\t0.5\t5
'''
HALVES: Rows = [['Stream', 'Type', 'Tstart (°C)', 'Ttarget (°C)', 'Q (kW)', 'ΔT/2 (K)'], ['H1', 'H', 170, 60, 330, 5],
                ['H2', 'H', 150, 30, 180, 5], ['C1', 'C', 20, 135, 230, 5], ['C2', 'C', 80, 140, 240, 5]]
EXPONENTS = '''Stream;T_in / K;T_out / K;Ċ / kW K⁻¹
H1;443.15;333.15;3
H2;423.15;303.15;1.5
C1;293.15;408.15;2
C2;353.15;413.15;4
'''
INDENTED = '''Stream;Supply (°C);Target (°C);CP (kW/K)
Feed;;;
  Desalter;20;80;2
  Preheat;80;135;2
Effluent;170;60;3
Overhead;150;30;1.5
Recycle;80;140;4
'''
# Biegler, Grossmann and Westerberg, Systematic Methods of Chemical Process Design: 60 and 225 MW at 20 K, from memory.
BIEGLER = '''Stream;Fcp (MW/°C);Tin (°C);Tout (°C)
H1;0.1;400;120
H2;0.2;340;120
C1;0.15;160;400
C2;0.13;100;250
'''
SIMULATORS = {
    'arrows in one cell': PlantTable(ARROWS, 20, 60), 'ranges with duties': PlantTable(RANGES, 20, 60),
    'ranges with dashes, German': PlantTable(DASHES, 20, 60), 'sides of an exchanger': PlantTable(SIDES, 20, 60),
    'PRO/II': PlantTable(PRO_II, 20, 60), 'segments below a whole': PlantTable(workbook(SEGMENTS), 20, 60, None),
    'spreadsheet with shifted temperatures': PlantTable(workbook(SHIFTED), 20, 60, None),
    'German consultant': PlantTable(DAIRY, 20, 60), 'French, thousands': PlantTable(UNITE, 200, 600),
    'Spanish, Mcal/h': PlantTable(CALORIAS, 20, 60, off=1), 'Italian, specific heats': PlantTable(PORTATA, 20, 60),
    'Markdown': PlantTable(MARKDOWN, 20, 60), 'HINT': PlantTable(HINT, 20, 60, None),
    'halves of the difference': PlantTable(workbook(HALVES), 20, 60, None), 'exponents': PlantTable(EXPONENTS, 20, 60),
    'indented segments': PlantTable(INDENTED, 20, 60),
    'Biegler and others, a tenth of them, published': PlantTable(BIEGLER, 6000, 22_500, '20 K')}
# What is refused, and why: each says what to write.
REFUSED = {
    'a multiple that is open': (PRO_II.replace('MM*KJ', 'M*BTU'), 'write `10^3 BTU/HR` or `10^6 BTU/HR`'),
    'a list of exchangers': ('Exchanger;Hot stream;Hot in (°C);Hot out (°C);Cold stream;Cold in (°C);Cold out (°C);'
                             'Duty (kW)\nE-1;Effluent;170;60;Feed;20;135;230\n', 'give each stream a row of its own'),
    'a utility without a kind': ('Stream,Ts,Tt,mCp,ΔH\n-,°C,°C,kW/°C,kW\nH1,300,100,1.5,300\nUT,200,200,(var),\n',
                                 'it is a utility: a column `kind` has to say heater or cooler'),
    'signs the other way round': (SIDES.replace(';Hot/Cold', ';Remark'), 'a duty below 0 is what a stream gives')}
