"""What the instructions do that work on one activation alone. Each leaves all as it was where it raises a fault, which it returns."""
from model.reading import signed

BOUNDS_FAULT, ZERO_DIVISOR = "BoundsFault", "ZeroDivisor"


def quotient(left, right):
    """Truncated toward zero."""
    whole = abs(left) // abs(right)
    return whole if (left < 0) == (right < 0) else -whole


def remainder(left, right):
    return left - right * quotient(left, right)


def signed_long(number):
    """A LONG number with its sign."""
    return number - 2**32 if number >= 2**31 else number


class Words:
    """A machine has `operands`, `variables` and `words_of_globals` of its topmost activation, and `text` and `module_number`."""

    def push(self, *words):
        self.operands.extend(word % 65_536 for word in words)

    def popped(self, count):
        words = self.operands[len(self.operands) - count :]
        del self.operands[len(self.operands) - count :]
        return words

    def do_Lit(self, word):
        self.push(word)

    def do_Str(self, literal):
        self.push(self.module_number + 1, literal)

    # ---- variables and globals

    def load(self, among, slot, count):
        self.push(*among[slot : slot + count])

    def store(self, among, slot, count):
        among[slot : slot + count] = self.popped(count)

    def load_within(self, among, slot, room, count):
        if self.operands[-1] + count > room:
            return BOUNDS_FAULT
        self.load(among, slot + self.popped(1)[0], count)

    def store_within(self, among, slot, room, count):
        offset = self.operands[-1 - count]
        if offset + count > room:
            return BOUNDS_FAULT
        self.store(among, slot + offset, count)
        self.popped(1)

    def do_LoadL(self, slot, count):
        self.load(self.variables, slot, count)

    def do_StoreL(self, slot, count):
        self.store(self.variables, slot, count)

    def do_LoadG(self, slot, count):
        self.load(self.words_of_globals, slot, count)

    def do_StoreG(self, slot, count):
        self.store(self.words_of_globals, slot, count)

    def do_LoadLX(self, *operands):
        return self.load_within(self.variables, *operands)

    def do_StoreLX(self, *operands):
        return self.store_within(self.variables, *operands)

    def do_LoadGX(self, *operands):
        return self.load_within(self.words_of_globals, *operands)

    def do_StoreGX(self, *operands):
        return self.store_within(self.words_of_globals, *operands)

    def do_ZeroL(self, slot, count):
        self.variables[slot : slot + count] = [0] * count

    def do_ZeroG(self, slot, count):
        self.words_of_globals[slot : slot + count] = [0] * count

    # ---- numbers

    def do_Index(self, count, size):
        if self.operands[-1] >= count:
            return BOUNDS_FAULT
        offset, index = self.popped(2)
        self.push(offset + index * size)

    def binary(self, work):
        left, right = self.popped(2)
        self.push(int(work(left, right)))

    def divided(self, work):
        if self.operands[-1] == 0:
            return ZERO_DIVISOR
        self.binary(work)

    def do_Add(self):
        self.binary(lambda left, right: left + right)

    def do_Sub(self):
        self.binary(lambda left, right: left - right)

    def do_Mul(self):
        self.binary(lambda left, right: left * right)

    def do_Neg(self):
        self.push(-self.popped(1)[0])

    def do_DivI(self):
        return self.divided(lambda left, right: quotient(signed(left), signed(right)))

    def do_ModI(self):
        return self.divided(lambda left, right: remainder(signed(left), signed(right)))

    def do_DivC(self):
        return self.divided(lambda left, right: left // right)

    def do_ModC(self):
        return self.divided(lambda left, right: left % right)

    def do_Eq(self):
        self.binary(lambda left, right: left == right)

    def do_LessI(self):
        self.binary(lambda left, right: signed(left) < signed(right))

    def do_LessC(self):
        self.binary(lambda left, right: left < right)

    def do_Not(self):
        self.push(int(self.popped(1)[0] == 0))

    def do_CheckI(self, least, most):
        return None if signed(least) <= signed(self.operands[-1]) <= signed(most) else BOUNDS_FAULT

    def do_CheckC(self, least, most):
        return None if least <= self.operands[-1] <= most else BOUNDS_FAULT

    # ---- LONG numbers, of two words each: the more significant lies under the other

    def long_at(self, place):
        """The number on top, or that which lies so many numbers below it; its words stay."""
        more, less = self.operands[len(self.operands) - 2 * place - 2 :][:2]
        return more * 65_536 + less

    def push_long(self, number):
        self.push(number >> 16, number)

    def popped_longs(self):
        """The two numbers on top, the lower one first."""
        numbers = self.long_at(1), self.long_at(0)
        self.popped(4)
        return numbers

    def long_binary(self, work):
        self.push_long(work(*self.popped_longs()))

    def long_divided(self, work):
        if self.long_at(0) == 0:
            return ZERO_DIVISOR
        self.long_binary(work)

    def long_related(self, test):
        self.push(int(test(*self.popped_longs())))

    def narrowed(self, least, most):
        number = signed_long(self.long_at(0))
        if not least <= number <= most:
            return BOUNDS_FAULT
        self.popped(2)
        self.push(number)

    def do_AddD(self):
        self.long_binary(lambda left, right: left + right)

    def do_SubD(self):
        self.long_binary(lambda left, right: left - right)

    def do_MulD(self):
        self.long_binary(lambda left, right: left * right)

    def do_NegD(self):
        number = self.long_at(0)
        self.popped(2)
        self.push_long(-number)

    def do_DivDI(self):
        return self.long_divided(lambda left, right: quotient(signed_long(left), signed_long(right)))

    def do_ModDI(self):
        return self.long_divided(lambda left, right: remainder(signed_long(left), signed_long(right)))

    def do_DivDC(self):
        return self.long_divided(lambda left, right: left // right)

    def do_ModDC(self):
        return self.long_divided(lambda left, right: left % right)

    def do_EqD(self):
        self.long_related(lambda left, right: left == right)

    def do_LessDI(self):
        self.long_related(lambda left, right: signed_long(left) < signed_long(right))

    def do_LessDC(self):
        self.long_related(lambda left, right: left < right)

    def do_WidenI(self):
        self.push_long(signed(self.popped(1)[0]))

    def do_WidenC(self):
        self.push_long(self.popped(1)[0])

    def do_NarrowI(self):
        return self.narrowed(-32_768, 32_767)

    def do_NarrowC(self):
        return self.narrowed(0, 65_535)

    def do_CheckD(self):
        return BOUNDS_FAULT if self.long_at(0) >= 2**31 else None

    # ---- strings and words

    def do_StrLen(self):
        self.push(len(self.text(*self.popped(2))))

    def do_StrAt(self):
        number, literal, index = self.operands[-3:]
        text = self.text(number, literal)
        if index >= len(text):
            return BOUNDS_FAULT
        self.popped(3)
        self.push(text[index])

    def do_Pop(self, count):
        self.popped(count)

    def do_Roll(self, count, over):
        words = self.popped(count + over)
        self.push(*words[count:], *words[:count])
