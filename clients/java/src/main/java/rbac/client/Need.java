package rbac.client;

/** What a request needs: an operation on an object. */
public final class Need {
    private final String operation;
    private final String object;

    private Need(String operation, String object) {
        this.operation = operation;
        this.object = object;
    }

    /** The operation on the object. */
    public static Need of(String operation, String object) {
        return new Need(operation, object);
    }

    /** The operation. */
    public String operation() {
        return operation;
    }

    /** The object. */
    public String object() {
        return object;
    }
}
