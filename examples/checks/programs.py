"""Programs that are run: where they lie, and how they ended."""
import os
import resource
import signal
import subprocess

from checks.missing import Missing
from checks.texts import ROOT, shown

SECONDS = 120


def found(variable, usual, how):
    """The path of a program that an environment variable may name. `how` says what makes the usual one."""
    path = ROOT / os.environ.get(variable, usual) if variable else ROOT / usual
    if not path.exists():
        raise Missing(f'there is no {shown(path)}: {how}')
    return str(path)


def run(command, **how):
    """As subprocess.run does, but a program that cannot be run, or does not end, is said in a sentence."""
    try:
        return subprocess.run(command, timeout=SECONDS, **how)
    except subprocess.TimeoutExpired:
        raise Missing(f'{command[0]} did not end within {SECONDS} seconds') from None
    except OSError as error:
        raise Missing(f'{command[0]} cannot be run: {error.strerror}') from None


def ending(status):
    """How a program ended."""
    return f'was ended by {signal.Signals(-status).name}' if status < 0 else f'ended with status {status}'


def text(data):
    """What was printed, whatever bytes it has."""
    return (data or b'').decode('utf-8', 'backslashreplace')


def output(program, data, about):
    """What a program prints, given this on its standard input. It must end well."""
    ran = run([program], input=data, stdout=subprocess.PIPE)
    if ran.returncode != 0:
        raise Missing(f'{program} {ending(ran.returncode)} on {about}')
    return text(ran.stdout)


def told(command, data=b'', limits=(), closed=None, **how):
    """What a program prints, what it complains of, and its status. Its standard input is a pipe with this data, if nothing else is said;
    one of its three streams may be closed."""
    def restrict():
        for which, most in limits:
            resource.setrlimit(which, (most, resource.getrlimit(which)[1]))
        if closed is not None:
            os.close(closed)

    how = {'stdout': subprocess.PIPE, 'stderr': subprocess.PIPE, **how}
    if 'stdin' not in how:
        how['input'] = data
    ran = run([str(word) for word in command], preexec_fn=restrict if limits or closed is not None else None, **how)
    return text(ran.stdout), text(ran.stderr), ran.returncode


def nobody_reads():
    """The writing end of a pipe whose other end is closed."""
    reader, writer = os.pipe()
    os.close(reader)
    return os.fdopen(writer, 'wb')
