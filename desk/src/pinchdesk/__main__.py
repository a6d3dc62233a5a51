"""`python3 -m pinchdesk WORD ..`, as the command."""
from .cli.main import run

if __name__ == '__main__':
    run()
