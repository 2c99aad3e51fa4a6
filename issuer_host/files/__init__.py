"""The files beside the host: the journals and what is kept beside them, each read and written in one way."""
