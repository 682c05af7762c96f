"""The repository's files, for the tools that compare them."""
import os

ROOT = os.path.dirname(os.path.dirname(os.path.abspath(__file__)))


def text(*path):
    with open(os.path.join(ROOT, *path), encoding='utf-8') as file:
        return file.read()


def sources(crate):
    folder = os.path.join(ROOT, 'crates', crate, 'src')
    return '\n'.join(text('crates', crate, 'src', name) for name in sorted(os.listdir(folder)))


def parts(listed):
    return [part.strip() for part in listed.split(',') if part.strip()]
