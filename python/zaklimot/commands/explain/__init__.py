"""Why a line is no step, why a fault came, and why a step was refused."""
