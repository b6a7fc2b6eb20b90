"""The ASN.1 module of Q.736 clause 3 (Reverse charging) for pyasn1, with the remote operations that it imports.

The module's default is EXPLICIT TAGS, and each of its tagged elements says IMPLICIT. Its misprints are read as in the other
languages of the Recommendation: partialCallOnly belongs to REVCalledRequest's PARAMETER. The four components are those of X.229,
which Q.763 has for its Remote operations parameter. pyasn1 has no "..." (elements that a later version adds): it refuses them.
"""
from pyasn1.type import constraint, namedtype, tag, univ


def tagged(kind, number, form=tag.tagFormatSimple):
    """kind with the tag [number] IMPLICIT"""
    return kind.subtype(implicitTag=tag.Tag(tag.tagClassContext, form, number))


def holder(kind, number):
    """a SEQUENCE with the tag [number] IMPLICIT"""
    return tagged(kind, number, tag.tagFormatConstructed)


def sequence(*elements):
    class Kind(univ.Sequence):
        componentType = namedtype.NamedTypes(*elements)
    return Kind()


def choice(*elements):
    class Kind(univ.Choice):
        componentType = namedtype.NamedTypes(*elements)
    return Kind()


element = namedtype.NamedType
optional = namedtype.OptionalNamedType

# -- the types of clause 3

user_number = univ.OctetString().subtype(subtypeSpec=constraint.ValueSizeConstraint(2, 10))
duration = univ.OctetString().subtype(subtypeSpec=constraint.ValueSizeConstraint(3, 3))

calling_parameter = sequence(
    optional('transferRequested', tagged(univ.Boolean(), 0)),
    optional('callingUserNumber', tagged(user_number, 1)))
calling_result = sequence(
    optional('transferAccepted', tagged(univ.Boolean(), 0)),
    optional('calledUserNumber', tagged(user_number, 1)))
called_parameter = sequence(
    optional('transferRequested', tagged(univ.Boolean(), 0)),
    optional('calledUserNumber', tagged(user_number, 1)),
    optional('partialCallOnly', tagged(univ.Boolean(), 2)))
called_result = sequence(
    optional('transferAccepted', tagged(univ.Boolean(), 0)),
    optional('callingUserNumber', tagged(user_number, 1)),
    optional('duration', tagged(duration, 2)))

# {itu-t(0) recommendation(0) q(17) 736 3}, then operations-and-errors(1)
operations_and_errors = univ.ObjectIdentifier((0, 0, 17, 736, 3)) + (1,)

# the operations: name, PARAMETER, RESULT
operations = {
    operations_and_errors + (1,): ('rEVCallingReqSetup', calling_parameter, calling_result),
    operations_and_errors + (2,): ('rEVCallingReqActive', calling_parameter, calling_result),
    operations_and_errors + (3,): ('rEVCalledRequest', called_parameter, called_result),
}
# the errors, none of which has a parameter
errors = {
    operations_and_errors + (4,): 'userNotSubscribed',
    operations_and_errors + (5,): 'rejectedByNetwork',
    operations_and_errors + (6,): 'rejectedByUser',
    operations_and_errors + (7,): 'notAvailable',
    operations_and_errors + (8,): 'supplementaryServiceInteractionNotAllowed',
    operations_and_errors + (9,): 'basicServiceNotProvided',
    operations_and_errors + (10,): 'resourceUnavailable',
    operations_and_errors + (11,): 'userIgnored',
    operations_and_errors + (12,): 'rEVIsAlreadyRunning',
}

# -- remote operations

invoke_id = univ.Integer().subtype(subtypeSpec=constraint.ValueRangeConstraint(-128, 127))
operation = choice(
    element('localValue', univ.Integer()),
    element('globalValue', univ.ObjectIdentifier()))

invoke = sequence(
    element('invokeID', invoke_id),
    optional('linkedID', tagged(invoke_id, 0)),
    element('operation', operation),
    optional('parameter', univ.Any()))
return_result = sequence(
    element('invokeID', invoke_id),
    optional('result', sequence(
        element('operation', operation),
        element('result', univ.Any()))))
return_error = sequence(
    element('invokeID', invoke_id),
    element('error', operation),
    optional('parameter', univ.Any()))
reject = sequence(
    element('invokeID', choice(
        element('identifier', invoke_id),
        element('none', univ.Null()))),
    element('problem', choice(
        element('general', tagged(univ.Integer(), 0)),
        element('invoke', tagged(univ.Integer(), 1)),
        element('returnResult', tagged(univ.Integer(), 2)),
        element('returnError', tagged(univ.Integer(), 3)))))

component = choice(
    element('invoke', holder(invoke, 1)),
    element('returnResult', holder(return_result, 2)),
    element('returnError', holder(return_error, 3)),
    element('reject', holder(reject, 4)))
