"""values.py VECTORS: the words of each vector, put together from what pyasn1 decodes of its octets, and compared with the words
that stand there. Nothing here comes from the project's own reader: the number's octets are read by Q.763 3.10 (calling party number),
the duration's by the module (hours, minutes, seconds). Prints what differs; fails on any difference.
"""
import sys

import decode

kinds = {'invoke': 'INVOKE', 'returnResult': 'RESULT', 'returnError': 'ERROR', 'reject': 'REJECT'}
operations = {'rEVCallingReqSetup': 'SETUP', 'rEVCallingReqActive': 'ACTIVE', 'rEVCalledRequest': 'CALLED'}
natures = {3: '', 4: '+'}  # national (significant) number, international number


def number(octets):
    """digits, with + where they are international"""
    odd, nature = octets[0] >> 7, octets[0] & 0x7F
    incomplete, plan = octets[1] >> 7, octets[1] >> 4 & 7
    if incomplete or plan != 1:
        raise ValueError('a number that is incomplete, or not of E.164')
    digits = [half for octet in octets[2:] for half in (octet & 15, octet >> 4)]
    if odd and digits.pop() != 0:
        raise ValueError('the filler is not 0')
    if not digits or max(digits) > 9:
        raise ValueError('no digits, or one above 9')
    return natures[nature] + ''.join(str(digit) for digit in digits)


def seconds(octets):
    hours, minutes, rest = octets
    if minutes > 59 or rest > 59:
        raise ValueError('minutes or seconds above 59')
    return hours * 3600 + minutes * 60 + rest


def words(kind, values):
    """the words of one component"""
    value = dict(values)
    said = [kinds[kind]]
    if kind in ('invoke', 'returnResult'):
        said.append(operations[decode.module.operations[value['operation']][0]])
    if kind == 'returnError':
        if value['error'] not in decode.module.errors:
            raise ValueError('an error that the module has not')
        said.append(str(value['error'][-1]))
    identifier = value['invokeID']
    said += ['ID', '-' if identifier is None else '%02X' % (identifier & 0xFF)]
    if value.get('transferRequested'):
        said.append('TRANSFER')
    if 'transferAccepted' in value:
        said.append('ACCEPTED')
        if value['transferAccepted']:
            said.append('AS-TRANSFER')
    if value.get('partialCallOnly'):
        said.append('PARTIAL')
    if 'callingUserNumber' in value:
        said += ['CALLING', number(value['callingUserNumber'])]
    if 'calledUserNumber' in value:
        said += ['CALLED', number(value['calledUserNumber'])]
    if 'duration' in value:
        said += ['DURATION', str(seconds(value['duration']))]
    return ' '.join(said)


def main():
    right = wrong = 0
    for line, mark, expected, octets in decode.vectors(sys.argv[1]):
        try:
            said = '; '.join(words(kind, values) for kind, values, _ in decode.components(mark, octets)) or 'NONE'
        except Exception as refusal:  # whatever pyasn1 or the code above says of octets that it does not read
            said = 'not read: %s' % ' '.join(str(refusal).split())
        if said == expected:
            right += 1
        else:
            wrong += 1
            print('values: %s\n  pyasn1 has: %s' % (line, said))
    print('values: %d vectors, %d in the words that pyasn1 has, %d not' % (right + wrong, right, wrong))
    sys.exit(wrong > 0 or right == 0)


if __name__ == '__main__':
    main()
