"""The commands of the package, as data. `--help`, the table of the README, manual pages and the
completion of shells are written from this one table."""

from dataclasses import dataclass


@dataclass(frozen=True)
class Package:
    """What a command needs beside Python: a module or a program, and the Debian package of it."""

    apt: str
    module: str = ""
    program: str = ""


@dataclass(frozen=True)
class Word:
    """A word of the command line: one that has to stand there, or an option where its name begins
    with `--`. A `kind` is `folder`, `file`, `text`, `switch`, or `whole` within a range."""

    name: str
    says: str
    kind: str = "text"
    default: int | str | None = None
    least: int = 0
    greatest: int | None = None
    many: bool = False

    @property
    def is_option(self) -> bool:
        """Whether it may be left out, and stands anywhere."""
        return self.name.startswith("--")


STATUSES = (
    (0, "a plan was written"),
    (1, "no plan was written; the last line says why"),
    (2, "the words of the command are wrong"),
    (130, "it was stopped before anything was found"),
)


@dataclass(frozen=True)
class Command:
    """A command: its module in this package has a function `run(words, talk)`."""

    name: str
    module: str
    says: str
    about: str
    reads: str
    writes: str
    words: tuple[Word, ...]
    example: str
    packages: tuple[Package, ...] = ()
    statuses: tuple[tuple[int, str], ...] = STATUSES


SCIPY = Package("python3-scipy", module="scipy")
CADICAL = Package("cadical", program="cadical")
PLOTLY = Package("python3-plotly", module="plotly")
MATPLOTLIB = Package("python3-matplotlib", module="matplotlib")
NETWORKX = Package("python3-networkx", module="networkx")
FOLDER = Word("folder", "the folder of a dataset", kind="folder")
SECONDS = Word("--seconds", "how long it may take", kind="whole", default=600, least=1)

COMMANDS = (
    Command(
        name="lintim-concept",
        module="commands.concept",
        says="Finds a line concept of least cost, and proves it, or one that is good for customers.",
        about="HiGHS finds a concept. It is written, and then a tree of regions is grown which proves\n"
        "that none costs less. A concept that is pinned already is where the search begins.\n"
        "--model direct has most direct travellers within a budget, --model time least minutes\n"
        "with a penalty for each change, and --model both the front of cost against direct\n"
        "travellers. What these say is counted twice, and told beside a concept of least cost.",
        reads="the loads, the pool and the costs of lines: stages load and cost of lintim make; "
        "other models also the demand in basis/OD.giv",
        writes="pinned/Line-Concept.lin, and pinned/Line-Concept.cert where it is proved; --model "
        "both the files that --table and --picture name",
        words=(
            FOLDER,
            Word("--model", "cost, direct, time or both", default="cost"),
            Word(
                "--budget",
                "direct, time, both: percent of the least cost that a concept may cost (120)",
                kind="whole",
                least=100,
                greatest=100_000,
            ),
            Word(
                "--change-penalty",
                "time: how many minutes a change counts for (5)",
                kind="whole",
                greatest=1_000,
            ),
            Word("--points", "both: how many budgets (6)", kind="whole", least=2, greatest=100),
            Word("--table", "both: a file .csv for the front", kind="file"),
            Word("--picture", "both: a file .svg or .png for the front", kind="file"),
            SECONDS,
        ),
        example="lintim-concept . --seconds 60",
        packages=(SCIPY,),
    ),
    Command(
        name="lintim-pool",
        module="commands.pool",
        says="Makes a pool of lines by demand: of shortest paths between terminals, of trees, or both.",
        about="Candidates are the shortest paths between each two terminals, or ways in spanning trees\n"
        "in which edges count more with each tree that had them. Lines are chosen that cover what\n"
        "customers go over, and on which most further customers are direct. No line goes over an\n"
        "edge twice. It tells what no line covers, and what customers have where all lines are\n"
        "driven. Where no terminals are named it takes ends of the network and large stops.",
        reads="stops, edges and demand",
        writes="basis/Pool.giv",
        words=(
            FOLDER,
            Word("--terminals", "where lines may end, by the ids of stops, as 1,2,4"),
            Word(
                "--lines",
                "how many lines at most (40)",
                kind="whole",
                least=1,
                greatest=200,
            ),
            Word("--method", "paths, trees or both", default="both"),
            Word(
                "--each",
                "how many shortest paths of each two terminals (3)",
                kind="whole",
                least=1,
                greatest=100,
            ),
            Word("--replace", "write it where a pool stands already", kind="switch"),
            Word("--seconds", "how long it may take", kind="whole", default=60, least=1),
        ),
        example="lintim-pool . --lines 20 --replace",
        packages=(SCIPY, NETWORKX),
        statuses=((0, "the pool was written"), (1, "no pool was written; the last line says why"))
        + STATUSES[2:],
    ),
    Command(
        name="lintim-timetable",
        module="commands.timetable",
        says="Finds a periodic timetable that keeps all bounds, or one that is good for passengers.",
        about="CaDiCaL finds one that keeps all bounds, or says that there is none; with --changes the\n"
        "least number that still works gives short changes. With --for-passengers the timetable\n"
        "of now is made better by what customers need from stop to stop, over all minutes at\n"
        "which they may want to leave: routes and times in turn, moves of lines and runs, and\n"
        "HiGHS, which also tells how much slack these routes have at least. With --few-vehicles\n"
        "turnarounds at the ends of lines count as well.",
        reads="the periodic events and activities: stage ean of lintim make; --for-passengers also "
        "its timetable, and the demand in basis/OD.giv",
        writes="pinned/Timetable-periodic.tim",
        words=(
            FOLDER,
            Word(
                "--changes",
                "minutes that a change may take at most beyond its least time",
                kind="whole",
            ),
            Word("--for-passengers", "make it good for customers", kind="switch"),
            Word("--few-vehicles", "the same, with turnarounds of vehicles", kind="switch"),
            Word(
                "--weights",
                "a file of rows `activity-id; weight`: make the sum of weighted slack least",
                kind="file",
            ),
            Word(
                "--change-penalty",
                "--for-passengers: how many minutes a change counts for beyond those it takes;"
                " 10 where nothing is said",
                kind="whole",
                greatest=1_000,
            ),
            SECONDS,
        ),
        example="lintim-timetable . --changes 16",
        packages=(CADICAL, SCIPY),
    ),
    Command(
        name="lintim-schedule",
        module="commands.schedule",
        says="Finds a vehicle schedule of least cost, and proves it.",
        about="SciPy solves the assignment of trips to the trips before them in their vehicles; two\n"
        "numbers for each trip prove that no schedule costs less. With --line-based each vehicle\n"
        "stays with one line, and what this costs is told beside. Kilometres, hours of drivers\n"
        "and, with --costs, the money of a year are one table for these and for what stands.",
        reads="the trips of the day and the edges: stage rollout of lintim make; for the table also "
        "stage cost",
        writes="pinned/Vehicle_Schedules.vs and pinned/Vehicle_Schedules.cert, which --line-based "
        "takes away",
        words=(
            FOLDER,
            Word("--line-based", "each vehicle stays with one line", kind="switch"),
            Word(
                "--costs",
                "a file of rows `key; value`: vehicle_of_a_year, kilometre, driver_hour, days (250), "
                "kilometres_of_a_unit (1)",
                kind="file",
            ),
        ),
        example="lintim-schedule .",
        packages=(SCIPY,),
    ),
    Command(
        name="lintim-waits",
        module="commands.waits",
        says="Finds which changes of a late day are to be kept at least cost, and proves it.",
        about="A decision costs the minutes by which all arrivals are late, and the penalty for each\n"
        "change that is dropped. HiGHS finds one among the changes that can be broken at all;\n"
        "it is written, and then a tree is grown which proves that none costs less. What the\n"
        "rules none, 3, 5 and all of the setting dm_wait cost is told beside it. A decision\n"
        "that is saved already is where the search begins.",
        reads="the day, its schedule and the files of delays: stages rollout and vehicles; with "
        "--passengers and --compare also basis/OD.giv",
        writes="waiting/Waits.cert, with a tree where it is proved; --passengers writes one without",
        words=(
            FOLDER,
            Word(
                "penalty",
                "how many minutes of delay a dropped change counts for",
                kind="whole",
                greatest=1_000_000,
            ),
            SECONDS,
            Word(
                "--nodes",
                "how many nodes the tree may have",
                kind="whole",
                default=50_000,
                least=1,
            ),
            Word(
                "--passengers",
                "changes and arrivals count as many customers as are in them",
                kind="switch",
            ),
            Word(
                "--compare",
                "tell what the rules and the optima mean for customers; nothing is written without"
                " --passengers",
                kind="switch",
            ),
        ),
        example="lintim-waits . 10",
        packages=(SCIPY,),
    ),
    Command(
        name="lintim-gtfs",
        module="commands.gtfs",
        says="Turns a dataset into a GTFS feed, a feed into a dataset, and checks feeds.",
        about="lintim-gtfs export FOLDER FEED.zip writes the planned or the disposed day as a feed.\n"
        "lintim-gtfs import FEED.zip FOLDER writes a new dataset of one date of a feed: stops, edges,\n"
        "lines, loads and, where lines are periodic, their timetable.\n"
        "lintim-gtfs check FEED.zip tells which rules of the GTFS Schedule reference are broken.",
        reads="the day that lintim make planned, or a feed",
        writes="the feed that is named, or a dataset in a new folder with import/ids.csv and"
        " import/Line-Name.giv",
        words=(
            Word("what", "export, import or check"),
            Word("paths", "the folder and the feed, from where to where", kind="file", many=True),
            Word("--date", "the date of the feed (export: 20260105 where none is given)"),
            Word("--disposed", "export the times of the day with its delays", kind="switch"),
            Word("--place", "export: LAT,LON where plane coordinates have their origin"),
            Word("--scale", "export: how many metres a unit of plane coordinates has (1000)"),
            Word("--from", "import: take trips that start at this time or later, as 07:00"),
            Word("--to", "import: take trips that start at this time or before, as 09:00"),
            Word(
                "--period",
                "import: the minutes of a period (60)",
                kind="whole",
                least=1,
                greatest=720,
            ),
            Word(
                "--route-type",
                "import: take routes of this type alone; export: the type of all routes (as the table"
                " of names tells, else 3, bus)",
                kind="whole",
                greatest=1799,
            ),
            Word(
                "--share",
                "import: a way with so many percent of the trips of its route is a line (5)",
                kind="whole",
                least=1,
                greatest=100,
            ),
            Word(
                "--routes",
                "import: take so many routes, grown from the busiest station",
                kind="whole",
                least=1,
                greatest=100_000,
            ),
            Word("--fit", "import: take the first of the parts that fit", kind="switch"),
            Word("--area", "import: take the stops in the box SOUTH,WEST,NORTH,EAST of degrees"),
            Word(
                "--seconds",
                "check, import: how long it may take (60)",
                kind="whole",
                least=1,
                greatest=1_000_000,
            ),
            Word(
                "--memory",
                "check, import: how many MB of memory it may take (1000)",
                kind="whole",
                least=100,
                greatest=1_000_000,
            ),
        ),
        example="lintim-gtfs export . feed.zip",
        statuses=(
            (0, "it was written; check: no rule is broken"),
            (1, "it was not written; check: a rule is broken; the last line says why"),
            (2, "the words of the command are wrong"),
            (130, "it was stopped before anything was written"),
        ),
    ),
    Command(
        name="lintim-convert",
        module="commands.convert",
        says="Turns a dataset of LinTim into one of lintim and back, and judges LinTim's plans.",
        about="lintim-convert in LINTIM NEW writes a new dataset of a folder of LinTim: its config with\n"
        "all that it includes, network, loads, and its plans as pinned ones.\n"
        "lintim-convert out FOLDER NEW writes a folder of LinTim's form of a dataset.\n"
        "lintim-convert judge LINTIM pins LinTim's plans in a copy, lets lintim make and check judge\n"
        "them, and tells in LinTim's ids what is kept, and what it costs beside the least.\n"
        "A folder that is read is never changed. What is lost or weaker is told and counted.",
        reads="a folder of LinTim, or a dataset with the made files that are up to date",
        writes="the new folder: a dataset with import/ids.csv, or a folder of LinTim's form",
        words=(
            Word("what", "in, out or judge"),
            Word("paths", "the folder that is read, and the new one", kind="file", many=True),
            Word("--driven", "in, judge: take the lines that are driven alone", kind="switch"),
            Word("--seconds", "judge: how long it may prove", kind="whole", default=60, least=1),
        ),
        example="lintim-convert in datasets/toy toy",
        packages=(SCIPY,),
        statuses=(
            (0, "it was written; judge: no plan is broken"),
            (1, "it was not written; judge: a plan is broken; the last line says why"),
            (2, "the words of the command are wrong"),
            (130, "it was stopped before anything was written"),
        ),
    ),
    Command(
        name="lintim-view",
        module="commands.view",
        says="Draws a plan: one page for a browser, and pictures for print.",
        about="The network, the line plan, the circle of each stop, space-time diagrams, vehicles,\n"
        "delays and numbers, from whatever files stand in the folder. Pointing at a shape tells\n"
        "its id. Of two folders all is drawn side by side, with what differs. --svg and --png\n"
        "want python3-matplotlib; a network without coordinates wants python3-scipy and\n"
        "python3-networkx.",
        reads="whatever files stand in one dataset, or in two",
        writes="the page: view.html where you are, or what --out names; pictures where --svg and --png say",
        words=(
            FOLDER,
            Word("other", "a second dataset, to be seen beside the first", "folder", many=True),
            Word("--out", "the page", kind="file", default="view.html"),
            Word("--from", "what is under way from this time on, as 07:05"),
            Word("--to", "what is under way up to this time"),
            Word("--lines", "these lines alone, as 1,2"),
            Word(
                "--path",
                "stops along which all trips are drawn too, as 1,2,4; several may be named",
                many=True,
            ),
            Word("--svg", "a folder for each picture as a file of its own", kind="file"),
            Word("--png", "the same as dots, for slides", kind="file"),
            Word("--beside", "the script of plotly is a file beside the page", kind="switch"),
        ),
        example="lintim-view . --out town.html",
        packages=(PLOTLY,),
        statuses=((0, "the page was written"), (1, "no page was written; the last line says why"))
        + STATUSES[2:],
    ),
    Command(
        name="lintim-demand",
        module="commands.demand",
        says="Guesses how many customers go from stop to stop, and says how far that is from the supply.",
        about="lintim-demand gravity FOLDER: by departures, or by people round stops (--people).\n"
        "lintim-demand counts FOLDER --counts FILE: fitted to boardings and alightings by stop.\n"
        "lintim-demand matrix FOLDER --matrix FILE --zones FILE: a matrix of zones, laid on stops.\n"
        "The first line of the file says that it is a guess. Then the edges are told that would\n"
        "have most customers for their places.",
        reads="stops, edges, and lines: the pinned concept, else the one that was made, else the pool; the files that are named",
        writes="basis/OD.giv; demand that is no guess only with --replace",
        words=(
            Word("what", "gravity, counts or matrix"),
            FOLDER,
            Word(
                "--customers", "how many there are in all", kind="whole", least=1, greatest=10**9
            ),
            Word(
                "--slice",
                "which percent of them travel in one period, as 8 for a busy hour (100)",
                kind="whole",
                least=1,
                greatest=100,
            ),
            Word("--people", "gravity: a file of rows `stop; people`", kind="file"),
            Word("--counts", "counts: a file of rows `stop; boardings; alightings`", kind="file"),
            Word("--matrix", "matrix: a file of rows `from-zone; to-zone; customers`", kind="file"),
            Word("--zones", "matrix: a file of rows `zone; stop; share`", kind="file"),
            Word("--replace", "write over demand that is no guess", kind="switch"),
        ),
        example="lintim-demand gravity .",
        packages=(SCIPY,),
        statuses=(
            (0, "the guess was written"),
            (1, "it was not written; the last line says why"),
            (2, "the words of the command are wrong"),
            (130, "it was stopped before anything was written"),
        ),
    ),
    Command(
        name="lintim-passengers",
        module="commands.passengers",
        says="Tells how many customers are in each trip of a day, and how late they are.",
        about="The customers of basis/OD.giv, which has those of a period, are spread over the minutes of\n"
        "the day. Each takes the journey that lintim journey tells: the first arrival, then the\n"
        "fewest changes, then the latest departure. With --disposed they go as planned until they\n"
        "miss a change, and take the next best journey from there. Nobody is left at a stop: what\n"
        "is over the capacity is told.",
        reads="the day and its trips: stage rollout of lintim make; basis/OD.giv; with --disposed "
        "the disposition",
        writes="passengers/Stops.csv, Drives.csv, Trips.csv, Changes.csv, Missed.csv, Pairs.csv and "
        "Values.csv",
        words=(
            FOLDER,
            Word("--disposed", "by the times of the day with its delays", kind="switch"),
            Word(
                "--capacity",
                "how many customers a vehicle takes: what is over is told",
                kind="whole",
                least=1,
                greatest=1_000_000,
            ),
            Word(
                "--penalty",
                "how many minutes a change counts for beyond those it takes",
                kind="whole",
                default=0,
                greatest=1_000,
            ),
            Word(
                "--profile",
                "a file of rows `hour; share`: 100 where each period has the demand of basis/OD.giv,"
                " 0 for hours without a row; all hours have 100 where no file is named",
                kind="file",
            ),
        ),
        example="lintim-passengers . --capacity 70",
        packages=(SCIPY,),
        statuses=(
            (0, "the tables were written"),
            (1, "they were not written; the last line says why"),
        )
        + STATUSES[2:],
    ),
    Command(
        name="lintim-why",
        module="commands.why",
        says="Says what is wrong with a dataset, where, and what would help.",
        about="lintim make runs over a copy of what people write; nothing in the folder is changed.\n"
        "Each cause is told in lines `why: ..`, and what would help in a line `try: ..`: the line\n"
        "of the file as an editor counts, what was found and what is wanted, the nearest names,\n"
        "why there is no line concept or no timetable and with which settings there is one, and\n"
        "mistakes with which lintim make ends well. With words of lintim after the folder, as\n"
        "`lintim-why . journey 1 9 07:00`, it says what is wrong with these.",
        reads="what people write: basis, pinned, the files of delays and waiting",
        writes="nothing",
        words=(
            Word("folder", "the folder of a dataset", kind="folder", default="."),
            Word("words", "words that lintim was given there: make, where none are", many=True),
            Word("--seconds", "how long it may search", kind="whole", default=60, least=1),
        ),
        example="lintim-why .",
        packages=(SCIPY, CADICAL),
        statuses=(
            (0, "nothing is to be said"),
            (1, "something is told, or the last line on the standard error says why it cannot be"),
            (2, "the words of the command are wrong"),
            (130, "it was stopped before anything was told"),
        ),
    ),
)


def command(name: str) -> Command:
    """The command of a name."""
    return next(it for it in COMMANDS if it.name == name)
