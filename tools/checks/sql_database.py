"""A new database of a server of one's own, and what it answers, for trials and measures."""
import psycopg2

FIRST = 'postgres'  # the database that each server has


def ask(place, question):
    """The rows that a question to a database is answered by."""
    link = psycopg2.connect(place)
    link.autocommit = True
    try:
        with link.cursor() as cursor:
            cursor.execute(question)
            return cursor.fetchall() if cursor.description else []
    finally:
        link.close()


class Database:
    """A database that is made here."""

    def __init__(self, server, name):
        self.server, self.name = server, name
        ask(server.place(FIRST), f'CREATE DATABASE {name}')

    @property
    def place(self):
        """It, as libpq takes it."""
        return self.server.place(self.name)

    def ask(self, question):
        """The rows that a question is answered by."""
        return ask(self.place, question)

    def drop(self):
        """Takes it away."""
        ask(self.server.place(FIRST), f'DROP DATABASE {self.name}')
