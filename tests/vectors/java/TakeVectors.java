import java.io.IOException;
import java.math.BigInteger;
import java.security.MessageDigest;
import java.time.Instant;
import java.time.ZoneOffset;
import java.time.format.DateTimeFormatter;
import java.util.Arrays;
import java.util.Date;
import java.util.HexFormat;
import org.bouncycastle.asn1.ASN1Encodable;
import org.bouncycastle.asn1.ASN1GeneralizedTime;
import org.bouncycastle.asn1.ASN1Integer;
import org.bouncycastle.asn1.ASN1ObjectIdentifier;
import org.bouncycastle.asn1.DERBitString;
import org.bouncycastle.asn1.DERGeneralizedTime;
import org.bouncycastle.asn1.DERNull;
import org.bouncycastle.asn1.DEROctetString;
import org.bouncycastle.asn1.DERSequence;
import org.bouncycastle.asn1.cmp.CMPCertificate;
import org.bouncycastle.asn1.cmp.CertConfirmContent;
import org.bouncycastle.asn1.cmp.CertOrEncCert;
import org.bouncycastle.asn1.cmp.CertRepMessage;
import org.bouncycastle.asn1.cmp.CertResponse;
import org.bouncycastle.asn1.cmp.CertStatus;
import org.bouncycastle.asn1.cmp.CertifiedKeyPair;
import org.bouncycastle.asn1.cmp.ErrorMsgContent;
import org.bouncycastle.asn1.cmp.InfoTypeAndValue;
import org.bouncycastle.asn1.cmp.PKIBody;
import org.bouncycastle.asn1.cmp.PKIConfirmContent;
import org.bouncycastle.asn1.cmp.PKIFailureInfo;
import org.bouncycastle.asn1.cmp.PKIFreeText;
import org.bouncycastle.asn1.cmp.PKIHeader;
import org.bouncycastle.asn1.cmp.PKIHeaderBuilder;
import org.bouncycastle.asn1.cmp.PKIMessage;
import org.bouncycastle.asn1.cmp.PKIStatus;
import org.bouncycastle.asn1.cmp.PKIStatusInfo;
import org.bouncycastle.asn1.cmp.ProtectedPart;
import org.bouncycastle.asn1.crmf.CertReqMessages;
import org.bouncycastle.asn1.crmf.CertReqMsg;
import org.bouncycastle.asn1.crmf.CertRequest;
import org.bouncycastle.asn1.crmf.CertTemplateBuilder;
import org.bouncycastle.asn1.crmf.POPOSigningKey;
import org.bouncycastle.asn1.crmf.ProofOfPossession;
import org.bouncycastle.asn1.pkcs.PBMAC1Params;
import org.bouncycastle.asn1.pkcs.PKCSObjectIdentifiers;
import org.bouncycastle.asn1.x500.X500Name;
import org.bouncycastle.asn1.x500.X500NameBuilder;
import org.bouncycastle.asn1.x500.style.BCStyle;
import org.bouncycastle.asn1.x509.AlgorithmIdentifier;
import org.bouncycastle.asn1.x509.AuthorityKeyIdentifier;
import org.bouncycastle.asn1.x509.BasicConstraints;
import org.bouncycastle.asn1.x509.Certificate;
import org.bouncycastle.asn1.x509.Extension;
import org.bouncycastle.asn1.x509.ExtensionsGenerator;
import org.bouncycastle.asn1.x509.GeneralName;
import org.bouncycastle.asn1.x509.KeyUsage;
import org.bouncycastle.asn1.x509.SubjectKeyIdentifier;
import org.bouncycastle.asn1.x509.SubjectPublicKeyInfo;
import org.bouncycastle.asn1.x509.TBSCertificate;
import org.bouncycastle.asn1.x509.Time;
import org.bouncycastle.asn1.x509.V3TBSCertificateGenerator;
import org.bouncycastle.crypto.AsymmetricCipherKeyPair;
import org.bouncycastle.crypto.digests.SHA256Digest;
import org.bouncycastle.crypto.generators.PKCS5S2ParametersGenerator;
import org.bouncycastle.crypto.macs.HMac;
import org.bouncycastle.pqc.crypto.lms.HSSKeyGenerationParameters;
import org.bouncycastle.pqc.crypto.lms.HSSKeyPairGenerator;
import org.bouncycastle.pqc.crypto.lms.HSSPublicKeyParameters;
import org.bouncycastle.pqc.crypto.lms.HSSSigner;
import org.bouncycastle.pqc.crypto.lms.LMOtsParameters;
import org.bouncycastle.pqc.crypto.lms.LMSParameters;
import org.bouncycastle.pqc.crypto.lms.LMSigParameters;

/**
 * Prints the messages of an enrolment under a shared secret, from both sides, as Bouncy Castle makes them: the requests of the
 * device, and the replies that the authority owes with the keys of a key file, at a time and with words that are told.
 */
public final class TakeVectors {
    static final ASN1ObjectIdentifier HSS_LMS = new ASN1ObjectIdentifier("1.2.840.113549.1.9.16.3.17");
    static final byte[] REFERENCE = "dev-1".getBytes();
    static final byte[] SECRET = "secret-1".getBytes();
    static final byte[] TRANSACTION = run(0x00, 16);
    static final X500Name AUTHORITY = cn("Fleet CA");
    static final X500Name DEVICE = cn("device-1");
    private static final long NOW = 1_700_000_000L;
    private static final int ROUNDS = 1000;
    private static final byte[] ISSUE_SEED = run(0x10, 32);
    private static final byte[] ISSUE_ID = run(0x80, 16);
    private static final byte[] REPLY_SEED = run(0x30, 32);
    private static final byte[] REPLY_ID = run(0xa0, 16);

    public static void main(String[] words) throws Exception {
        System.out.println("# Bouncy Castle " + PKIMessage.class.getPackage().getImplementationVersion());
        System.out.println("key_file " + hex(join(ISSUE_SEED, ISSUE_ID, REPLY_SEED, REPLY_ID)));
        Tree device = new Tree(run(0x50, 32), run(0x40, 16));
        PKIMessage ir = request(device, NOW, run(0x60, 16));
        show("ir", ir);
        Authority authority = new Authority(LMOtsParameters.sha256_n32_w8);
        CMPCertificate granted = authority.answer("", ir, device, NOW, run(0xb0, 32));

        PKIMessage wrong = confirmation(granted, NOW + 1, run(0x70, 16), run(0x00, 16));
        show("certConf with another recipNonce", wrong);
        show("badRecipientNonce", reply(wrong, NOW + 1, run(0xc0, 32), true, error("badRecipientNonce", PKIFailureInfo.badRecipientNonce), null));
        PKIMessage confirmation = confirmation(granted, NOW + 2, run(0x90, 16), run(0xb0, 16));
        show("certConf", confirmation);
        show("pkiconf", reply(confirmation, NOW + 2, run(0xd0, 32), true, new PKIBody(PKIBody.TYPE_CONFIRM, new PKIConfirmContent()), null));
        show("systemFailure", reply(ir, NOW, null, false, error("systemFailure", PKIFailureInfo.systemFailure), null));

        new Authority(LMOtsParameters.sha256_n32_w1).answer(" with w = 1", ir, device, NOW, run(0xb0, 32));
        new Authority(LMOtsParameters.sha256_n32_w1).answer(" with w = 1, a second later", ir, device, NOW + 1, run(0xc0, 32));
    }

    /** The keys of the key file by a set of LM-OTS, with the root, which was made when the authority was founded. */
    private static final class Authority {
        private final Tree issue;
        private final CMPCertificate root;

        Authority(LMOtsParameters ots) throws Exception {
            issue = new Tree(ISSUE_SEED, ISSUE_ID, ots);
            Tree reply = new Tree(REPLY_SEED, REPLY_ID, ots);
            System.out.println("identity " + hex(join(Arrays.copyOfRange(issue.key, 12, 60), Arrays.copyOfRange(reply.key, 12, 60))));
            root = root(issue, NOW);
            issue.sign(new byte[0]);
        }

        /** Shows the first certificate that is granted at a time, and the ip by the words drawn for it. */
        CMPCertificate answer(String which, PKIMessage ir, Tree device, long time, byte[] drawn) throws Exception {
            CMPCertificate granted = granted(issue, device, 3, time, time + 365 * 86_400 - 1);
            show("root" + which, root);
            show("certificate" + which, granted);
            show("ip" + which, reply(ir, time, drawn, true, granted(root, granted), new InfoTypeAndValue(
                    new ASN1ObjectIdentifier("1.3.6.1.5.5.7.4.14"), generalized(time + 300))));
            return granted;
        }
    }

    // ---- the device

    /** An ir for the device's key, with its signature as proof of possession. */
    static PKIMessage request(Tree device, long time, byte[] nonce) throws Exception {
        CertRequest request = new CertRequest(0, new CertTemplateBuilder().setSubject(DEVICE).setPublicKey(device.info()).build(), null);
        POPOSigningKey proof = new POPOSigningKey(null, new AlgorithmIdentifier(HSS_LMS),
                new DERBitString(device.sign(request.getEncoded("DER"))));
        CertReqMessages body = new CertReqMessages(new CertReqMsg(request, new ProofOfPossession(proof), null));
        return protect(header(time, nonce, null), new PKIBody(PKIBody.TYPE_INIT_REQ, body));
    }

    /** A certConf that accepts the certificate. */
    static PKIMessage confirmation(CMPCertificate granted, long time, byte[] nonce, byte[] received) throws Exception {
        CertStatus status = new CertStatus(sha256(granted.getEncoded("DER")), BigInteger.ZERO);
        return protect(header(time, nonce, received), new PKIBody(PKIBody.TYPE_CERT_CONFIRM,
                CertConfirmContent.getInstance(new DERSequence(status))));
    }

    private static PKIHeaderBuilder header(long time, byte[] nonce, byte[] received) {
        PKIHeaderBuilder header = new PKIHeaderBuilder(2, new GeneralName(DEVICE), new GeneralName(AUTHORITY));
        header.setMessageTime(generalized(time)).setProtectionAlg(pbmac1(Arrays.copyOf(sha256(nonce), 16)));
        header.setSenderKID(REFERENCE).setTransactionID(TRANSACTION).setSenderNonce(nonce);
        return received == null ? header : header.setRecipNonce(received);
    }

    private static PKIMessage protect(PKIHeaderBuilder plan, PKIBody body) throws Exception {
        PKIHeader header = plan.build();
        return new PKIMessage(header, body, new DERBitString(mac(header, body)));
    }

    // ---- the authority

    private static CMPCertificate root(Tree issue, long time) throws Exception {
        ExtensionsGenerator extensions = new ExtensionsGenerator();
        extensions.addExtension(Extension.subjectKeyIdentifier, false, new SubjectKeyIdentifier(issue.id()));
        extensions.addExtension(Extension.basicConstraints, true, new BasicConstraints(true));
        extensions.addExtension(Extension.keyUsage, true, new KeyUsage(KeyUsage.keyCertSign));
        return certificate(issue, 1, AUTHORITY, time, 253_402_300_799L, issue.info(), extensions);
    }

    private static CMPCertificate granted(Tree issue, Tree device, long serial, long from, long to) throws Exception {
        ExtensionsGenerator extensions = new ExtensionsGenerator();
        extensions.addExtension(Extension.authorityKeyIdentifier, false, new AuthorityKeyIdentifier(issue.id()));
        extensions.addExtension(Extension.subjectKeyIdentifier, false, new SubjectKeyIdentifier(device.id()));
        extensions.addExtension(Extension.keyUsage, true, new KeyUsage(KeyUsage.digitalSignature));
        return certificate(issue, serial, DEVICE, from, to, device.info(), extensions);
    }

    private static CMPCertificate certificate(Tree issue, long serial, X500Name subject, long from, long to, SubjectPublicKeyInfo key,
            ExtensionsGenerator extensions) throws Exception {
        V3TBSCertificateGenerator plan = new V3TBSCertificateGenerator();
        plan.setSerialNumber(new ASN1Integer(serial));
        plan.setSignature(new AlgorithmIdentifier(HSS_LMS));
        plan.setIssuer(AUTHORITY);
        plan.setSubject(subject);
        plan.setStartDate(new Time(Date.from(Instant.ofEpochSecond(from))));
        plan.setEndDate(new Time(Date.from(Instant.ofEpochSecond(to))));
        plan.setSubjectPublicKeyInfo(key);
        plan.setExtensions(extensions.generate());
        TBSCertificate tbs = plan.generateTBSCertificate();
        return new CMPCertificate(Certificate.getInstance(new DERSequence(new ASN1Encodable[] {
            tbs, new AlgorithmIdentifier(HSS_LMS), new DERBitString(issue.sign(tbs.getEncoded("DER")))})));
    }

    private static PKIBody granted(CMPCertificate root, CMPCertificate granted) {
        CertResponse response = new CertResponse(new ASN1Integer(0), new PKIStatusInfo(PKIStatus.granted),
                new CertifiedKeyPair(new CertOrEncCert(granted)), null);
        return new PKIBody(PKIBody.TYPE_INIT_REP, new CertRepMessage(new CMPCertificate[] {root}, new CertResponse[] {response}));
    }

    private static PKIBody error(String name, int reason) {
        return new PKIBody(PKIBody.TYPE_ERROR, new ErrorMsgContent(
                new PKIStatusInfo(PKIStatus.rejection, new PKIFreeText(name), new PKIFailureInfo(reason))));
    }

    /** The reply to a request at a time, by the 32 words drawn for it: a nonce of 16 and a salt of 16. */
    private static PKIMessage reply(PKIMessage to, long time, byte[] drawn, boolean isProtected, PKIBody body, InfoTypeAndValue info)
            throws Exception {
        PKIHeaderBuilder plan = new PKIHeaderBuilder(2, new GeneralName(AUTHORITY), to.getHeader().getSender());
        plan.setMessageTime(generalized(time)).setTransactionID(to.getHeader().getTransactionID());
        plan.setRecipNonce(to.getHeader().getSenderNonce());
        if (drawn != null) {
            plan.setSenderNonce(Arrays.copyOf(drawn, 16));
        }
        if (info != null) {
            plan.setGeneralInfo(info);
        }
        if (!isProtected) {
            return new PKIMessage(plan.build(), body);
        }
        return protect(plan.setProtectionAlg(pbmac1(Arrays.copyOfRange(drawn, 16, 32))).setSenderKID(REFERENCE), body);
    }

    // ---- both

    private static AlgorithmIdentifier pbmac1(byte[] salt) {
        AlgorithmIdentifier hmac = new AlgorithmIdentifier(PKCSObjectIdentifiers.id_hmacWithSHA256, DERNull.INSTANCE);
        AlgorithmIdentifier derivation = new AlgorithmIdentifier(PKCSObjectIdentifiers.id_PBKDF2,
                new DERSequence(new ASN1Encodable[] {new DEROctetString(salt), new ASN1Integer(ROUNDS), hmac}));
        return new AlgorithmIdentifier(PKCSObjectIdentifiers.id_PBMAC1, new PBMAC1Params(derivation, hmac));
    }

    /** The MAC of a message by its header's PBMAC1 and the device's secret (RFC 8018, 7.1). */
    static byte[] mac(PKIHeader header, PKIBody body) throws IOException {
        PBMAC1Params params = PBMAC1Params.getInstance(header.getProtectionAlg().getParameters());
        DERSequence derivation = new DERSequence(
                org.bouncycastle.asn1.ASN1Sequence.getInstance(params.getKeyDerivationFunc().getParameters()).toArray());
        byte[] salt = DEROctetString.getInstance(derivation.getObjectAt(0)).getOctets();
        int rounds = ASN1Integer.getInstance(derivation.getObjectAt(1)).intValueExact();
        byte[] text = new ProtectedPart(header, body).getEncoded("DER");
        PKCS5S2ParametersGenerator generator = new PKCS5S2ParametersGenerator(new SHA256Digest());
        generator.init(SECRET, salt, rounds);
        HMac mac = new HMac(new SHA256Digest());
        mac.init(generator.generateDerivedMacParameters(256));
        mac.update(text, 0, text.length);
        byte[] value = new byte[32];
        mac.doFinal(value, 0);
        return value;
    }

    static ASN1GeneralizedTime generalized(long time) {
        return new DERGeneralizedTime(DateTimeFormatter.ofPattern("yyyyMMddHHmmss'Z'").format(Instant.ofEpochSecond(time).atOffset(ZoneOffset.UTC)));
    }

    static byte[] sha256(byte[] octets) {
        try {
            return MessageDigest.getInstance("SHA-256").digest(octets);
        } catch (java.security.NoSuchAlgorithmException none) {
            throw new IllegalStateException(none);
        }
    }

    private static X500Name cn(String text) {
        return new X500NameBuilder().addRDN(BCStyle.CN, text).build();
    }

    static byte[] run(int first, int count) {
        byte[] octets = new byte[count];
        for (int i = 0; i < count; i++) {
            octets[i] = (byte) (first + i);
        }
        return octets;
    }

    private static byte[] join(byte[]... parts) {
        java.io.ByteArrayOutputStream all = new java.io.ByteArrayOutputStream();
        for (byte[] part : parts) {
            all.writeBytes(part);
        }
        return all.toByteArray();
    }

    static String hex(byte[] octets) {
        return HexFormat.of().formatHex(octets);
    }

    private static void show(String name, ASN1Encodable value) throws Exception {
        byte[] octets = value.toASN1Primitive().getEncoded("DER");
        System.out.println();
        System.out.println("[" + name + ", " + octets.length + " octets, SHA-256 " + hex(sha256(octets)) + "]");
        System.out.println(hex(octets));
    }

    /** An HSS key of one level, of height 5, which signs with its leaves in order. */
    static final class Tree {
        final byte[] key;
        private final HSSSigner signer = new HSSSigner();

        /** A key with w = 8. */
        Tree(byte[] seed, byte[] id) throws Exception {
            this(seed, id, LMOtsParameters.sha256_n32_w8);
        }

        Tree(byte[] seed, byte[] id, LMOtsParameters ots) throws Exception {
            HSSKeyPairGenerator generator = new HSSKeyPairGenerator();
            LMSParameters set = new LMSParameters(LMSigParameters.lms_sha256_n32_h5, ots);
            generator.init(new HSSKeyGenerationParameters(new LMSParameters[] {set}, new Fixed(seed, id)));
            AsymmetricCipherKeyPair pair = generator.generateKeyPair();
            key = ((HSSPublicKeyParameters) pair.getPublic()).getEncoded();
            signer.init(true, pair.getPrivate());
        }

        byte[] sign(byte[] text) throws Exception {
            return signer.generateSignature(text);
        }

        SubjectPublicKeyInfo info() {
            return new SubjectPublicKeyInfo(new AlgorithmIdentifier(HSS_LMS), key);
        }

        byte[] id() {
            return Arrays.copyOf(sha256(key), 20);
        }
    }
}
