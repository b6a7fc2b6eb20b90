"""decode.py VECTORS: what pyasn1 reads in the octets of each vector, by the schema of module.py.

For each component its kind, its values, and its octets as pyasn1 encodes these values again (by the distinguished rules: the
shortest lengths, TRUE as FF). values.py takes what is decoded from vectors() and components().
"""
import sys

import pyasn1
from pyasn1.codec.ber.decoder import decode
from pyasn1.codec.der.encoder import encode
from pyasn1.type import univ

import module


def hexadecimal(octets):
    return ' '.join('%02X' % octet for octet in bytes(octets))


def vectors(name):
    """the vectors of a file: the line, its mark ('' where it has none), its words, its octets"""
    with open(name, encoding='ascii') as lines:
        for line in lines:
            line = line.rstrip('\n')
            if line and not line.startswith('#'):
                words, octets = line.split(' => ')
                mark = words.split(' ')[0]
                mark = mark if mark in ('READ', 'PARAMETER') else ''
                yield line, mark, words[len(mark):].strip(), bytes.fromhex(octets)


def contents(octets):
    """the components in a parameter: Q.763's name, length and protocol profile, which are no ASN.1"""
    name, length, profile = octets[:3]
    if name != 0x32 or length != len(octets) - 2 or profile != 0x91:
        raise ValueError('no Remote operations parameter of this length with the profile 91')
    return octets[3:]


def inside(octets, kinds, which, value):
    """the PARAMETER (which 1) or RESULT (2) of the operation value, decoded, and as pyasn1 encodes it"""
    decoded, rest = decode(bytes(octets), asn1Spec=kinds[value][which])
    if rest:
        raise ValueError('octets after the parts')
    return decoded, univ.Any(encode(decoded))


def component(octets):
    """the first component: its kind, its values as a list of names and values, pyasn1's own octets of it, and the octets after it"""
    whole, rest = decode(octets, asn1Spec=module.component)
    kind = whole.getName()
    held = whole[kind]
    values, parts = [], None
    if kind == 'reject':
        identifier, problem = held['invokeID'], held['problem']
        if identifier.getName() == 'identifier':
            values.append(('invokeID', int(identifier['identifier'])))
        else:
            values.append(('invokeID', None))
        values.append(('problem', (problem.getName(), int(problem.getComponent()))))
    else:
        values.append(('invokeID', int(held['invokeID'])))
    if kind == 'invoke':
        if held['linkedID'].isValue:
            values.append(('linkedID', int(held['linkedID'])))
        operation = held['operation']['globalValue']
        values.append(('operation', operation))
        parts, held['parameter'] = inside(held['parameter'], module.operations, 1, operation)
    if kind == 'returnResult':
        operation = held['result']['operation']['globalValue']
        values.append(('operation', operation))
        parts, held['result']['result'] = inside(held['result']['result'], module.operations, 2, operation)
    if kind == 'returnError':
        values.append(('error', held['error']['globalValue']))
        if held['parameter'].isValue:
            raise ValueError('the errors of the module have no parameter')
    if parts is not None:
        for name, value in parts.items():
            if value.isValue:
                values.append((name, bool(value) if isinstance(value, univ.Boolean) else bytes(value)))
    return kind, values, encode(whole), rest


def components(mark, octets):
    """all components of a vector, each as component() gives it"""
    rest = contents(octets) if mark == 'PARAMETER' else octets
    while rest:
        kind, values, again, rest = component(rest)
        yield kind, values, again
        if mark != 'PARAMETER' and rest:
            raise ValueError('octets after the component')


def text(name, value):
    if value is None:
        return 'NULL'
    if name == 'problem':
        return '%s %d' % value
    if name == 'operation':
        return '%s %s' % (value, module.operations[value][0])
    if name == 'error':
        return '%s %s' % (value, module.errors[value])
    return hexadecimal(value) if isinstance(value, bytes) else str(value)


def main():
    print('pyasn1 %s' % pyasn1.__version__)
    for line, mark, _, octets in vectors(sys.argv[1]):
        print('\n## %s' % line)
        try:
            for kind, values, again in components(mark, octets):
                print(kind)
                for name, value in values:
                    print('  %s %s' % (name, text(name, value)))
                print('  encoded %s' % hexadecimal(again))
        except Exception as refusal:  # whatever pyasn1 says of octets that it does not read
            print('not read: %s' % ' '.join(str(refusal).split()))


if __name__ == '__main__':
    main()
