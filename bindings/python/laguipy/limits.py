"""The limits of models, graphs and figures. docs/FORMAT.md has them with what they are about."""

CERTAIN = 1_000_000_000  # S: certainty, in units

LEAST_MODEL_BYTES = 40
MODEL_BYTES = 40_000
MOST_VARIABLES = 16
NO_VARIABLE = 65_535  # the second place of 19 and 21 where it is no variable
MOST_EXPRESSIONS = 512
MOST_COMMANDS = 64
MOST_RECORDS = 1_024  # branches of all commands
MOST_BRANCHES = 16  # of one command
DEEPEST = 12  # the depth of an expression
LEAST_BOUND, MOST_BOUND = -30_000, 30_000  # of a variable
FARTHEST = 1_000_000  # the range of every number, either side
MOST_COMBINATIONS = 4_096  # of untracked variables' values, that are tried for a reading

LEAST_GRAPH_BYTES = 16
GRAPH_BYTES = 1_048_576
MOST_NODES = 4_096
SLOTS = 8_192  # of the index
NO_NODE = 65_535  # an empty slot, and the answer where no node has a state

MOST_STEPS = 10_000  # of a figure
MOST_ROUNDS = 1_000  # of a builder

PROGRAM_BYTES = 65_536  # of each file that the check program reads
READ_BYTES = 16_777_216  # of a text that is written as a folder, and of a folder that is shown
