"""Little-endian fields for the records of the generated inputs."""


def u8(number):
    return bytes([number])


def u32(number):
    return number.to_bytes(4, "little")


def i32(number):
    return number.to_bytes(4, "little", signed=True)


def block(data):
    """A 32-bit length and the bytes."""
    return u32(len(data)) + bytes(data)


def counted(numbers, width):
    """A 32-bit count and that many signed numbers of `width` bytes."""
    return u32(len(numbers)) + b"".join(number.to_bytes(width, "little", signed=True)
                                        for number in numbers)


def lines(texts):
    return "".join(text + "\n" for text in texts)
