"""The version of the desk, which is that of the release: it stands here alone."""
__version__ = '0.2.0'
