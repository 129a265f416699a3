class SmartcardException(Exception):
    pass
