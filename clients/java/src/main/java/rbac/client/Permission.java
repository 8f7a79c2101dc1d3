package rbac.client;

import java.util.Objects;

/** A permission: the name of an object and that of an operation. */
public final class Permission {
    private final String object;
    private final String operation;

    public Permission(String object, String operation) {
        this.object = object;
        this.operation = operation;
    }

    public String object() {
        return object;
    }

    public String operation() {
        return operation;
    }

    @Override
    public boolean equals(Object other) {
        return other instanceof Permission && toString().equals(other.toString());
    }

    @Override
    public int hashCode() {
        return Objects.hash(object, operation);
    }

    @Override
    public String toString() {
        var text = new StringBuilder();
        Json.append(text, object);
        Json.append(text.append(' '), operation);
        return text.toString();
    }
}
